/* Random calls from C. Each lent buffer ends where a page that nobody may touch begins, or starts where one ends, and
 * so lies at any alignment; some have length 0, of these some are NULL; small ones may lie on the heap instead, where
 * AddressSanitizer watches them. After each call: bytes that are only read are as they were, bytes behind an answer
 * and after a refusal are zero, work bytes are zero, a second build gives the same page, and a bundle is read as it
 * was written. usage: fuzz CALLS SEED REQUESTS. The inputs are made from the stored requests of the program `calls`:
 * taken as they are, cut, spoilt, or made up. */
#define _DEFAULT_SOURCE
#include <sys/mman.h>

#include "test.h"

#define PAGE 4096u
#define MOST 262144u
#define BUFFERS 5

static uint64_t state;

static uint64_t random64(void)
{
    state ^= state << 13;
    state ^= state >> 7;
    state ^= state << 17;
    return state;
}

static size_t below(size_t n)
{
    return n ? (size_t)(random64() % n) : 0;
}

static int one_in(size_t n)
{
    return below(n) == 0;
}

/* Lengths near the edges that matter, and any. */
static size_t some_length(size_t most)
{
    static const size_t edges[] = {0,    1,    2,     19,    20,    511,   512,   513,
                                   1024, 4096, 49151, 49152, 63999, 64000, 64001, 131584};
    size_t n = one_in(4) ? edges[below(sizeof edges / sizeof *edges)] : one_in(3) ? below(most + 1) : below(300);
    return n < most ? n : most;
}

/* ---- buffers: an arena each, with a guard page on both sides */

static unsigned char *arenas[BUFFERS];
static void *heap[BUFFERS];
static unsigned long nulls, empties, unaligned, guarded, watched;

static void make_arenas(void)
{
    int i;
    for (i = 0; i < BUFFERS; i++) {
        void *all = mmap(NULL, MOST + 2 * PAGE, PROT_NONE, MAP_PRIVATE | MAP_ANONYMOUS, -1, 0);
        if (all == MAP_FAILED || mprotect((char *)all + PAGE, MOST, PROT_READ | PROT_WRITE)) give_up("no memory");
        arenas[i] = (unsigned char *)all + PAGE;
    }
}

/* A buffer of this length in arena i: at its end, at its start, or on the heap. */
static unsigned char *placed(int i, size_t length)
{
    unsigned char *at;
    free(heap[i]);
    heap[i] = NULL;
    empties += length == 0;
    if (length == 0 && one_in(2)) {
        nulls++;
        return NULL;
    }
    if (length <= PAGE && one_in(3)) {
        watched++;
        heap[i] = malloc(length);
        return (unsigned char *)heap[i];
    }
    guarded++;
    at = one_in(4) ? arenas[i] : arenas[i] + MOST - length;
    unaligned += ((uintptr_t)at & 7u) != 0;
    return at;
}

/* ---- what is handed over */

#define MOST_SEEDS 16384u

typedef struct seed {
    const unsigned char *text, *events;
    size_t text_length, events_length;
} seed;

typedef struct seeds {
    seed all[MOST_SEEDS];
    size_t count;
} seeds;

static seeds texts, notes, bundles;

static uint32_t u32(const unsigned char *s)
{
    return (uint32_t)s[0] | (uint32_t)s[1] << 8 | (uint32_t)s[2] << 16 | (uint32_t)s[3] << 24;
}

/* Texts are what the calls 1 to 5 take, notes what 6, 7 and 9 take, bundles what 8 and 10 take. */
static seeds *kind_of(unsigned op)
{
    if (op <= 5) return &texts;
    return op == 8 || op == 10 ? &bundles : &notes;
}

static void learn(const char *name)
{
    size_t length, at = 0;
    const unsigned char *s = whole_file(name, &length);
    while (at + 32 <= length) {
        seeds *kind = kind_of(s[at]);
        seed one = {s + at + 32, s + at + 32 + u32(s + at + 4), u32(s + at + 4), u32(s + at + 8)};
        if (kind->count < MOST_SEEDS) kind->all[kind->count++] = one;
        at += 32 + one.text_length + one.events_length;
    }
    if (!texts.count || !notes.count || !bundles.count) give_up("no stored requests");
}

static const seed *some_of(const seeds *kind)
{
    return &kind->all[below(kind->count)];
}

static void spoil(unsigned char *s, size_t n)
{
    size_t times = one_in(3) ? below(4) : 0;
    while (n && times--) s[below(n)] = (unsigned char)random64();
}

/* A copy of known bytes, as they are or cut or spoilt; or bytes of a small alphabet; or any. */
static unsigned char *input(int i, int as_it_is, const unsigned char *from, size_t length, size_t *n)
{
    static const char alphabet[] = "a <>&\"%:/?#[]()\n\r\t\\|\xC3\xA9\xE2\x80\x9D\xF0\x9F\x9A\x80 0;=-`*_!x";
    unsigned char *s;
    size_t at;
    int kind = as_it_is ? 0 : (int)below(8);
    *n = kind > 4 ? some_length(MOST / 2) : !as_it_is && one_in(4) ? below(length + 1) : length;
    s = placed(i, *n);
    for (at = 0; kind > 4 && at < *n; at++)
        s[at] = kind == 5 ? (unsigned char)alphabet[below(sizeof alphabet - 1)] : (unsigned char)(random64() >> 3);
    if (kind <= 4 && *n) memcpy(s, from, *n);
    if (!as_it_is) spoil(s, *n);
    return s;
}

static unsigned char *output(int i, size_t *room)
{
    unsigned char *s;
    *room = some_length(MOST);
    s = placed(i, *room);
    if (*room) memset(s, 0xA5, *room);
    return s;
}

/* A sum over the bytes, to see that they are as they were. */
static uint64_t sum(const unsigned char *s, size_t n)
{
    uint64_t all = 1469598103934665603u;
    size_t i;
    for (i = 0; i < n; i++) all = (all ^ s[i]) * 1099511628211u;
    return all;
}

static int zero_behind(notepage_answer a, const unsigned char *out, size_t room)
{
    if (a.number) return all_are(out, room, 0);
    return a.value <= room && (room == a.value || all_are(out + a.value, room - a.value, 0));
}

/* ---- the calls */

static unsigned long answered[14][13];

static void count(size_t call, uint32_t number)
{
    if (number > 12) give_up("a number that is no refusal");
    answered[call][number]++;
}

static void try_text(size_t call)
{
    const seed *from = some_of(&texts);
    size_t n, room;
    unsigned char *s = input(0, one_in(2), from->text, from->text_length, &n), *out = output(1, &room);
    uint64_t before = sum(s, n);
    notepage_answer a;
    switch (call) {
    case 0: a = notepage_escape(s, n, (uint32_t)random64(), out, room); break;
    case 1: a = notepage_sanitize(s, n, (uint32_t)random64(), out, room); break;
    case 2: a = notepage_sanitize_link(s, n, (uint32_t)random64(), out, room); break;
    case 3: a = notepage_sanitize_image(s, n, (uint32_t)random64(), out, room); break;
    default: a = notepage_identity(s, n, out, room); break;
    }
    count(call, a.number);
    HOLDS(sum(s, n) == before && zero_behind(a, out, room));
}

static void try_normalize(void)
{
    const seed *from = some_of(&texts);
    size_t n, room;
    unsigned char *s = input(0, one_in(2), from->text, from->text_length, &n), *out = output(1, &room);
    uint64_t before = sum(s, n);
    notepage_normalized a = notepage_normalize(s, n, out, room);
    notepage_answer plain;
    plain.number = a.number;
    plain.value = a.value;
    count(11, a.number);
    HOLDS(sum(s, n) == before && zero_behind(plain, out, room) && a.visits <= (a.number ? 0 : n));
}

/* Also: each URL by itself gives its bytes and its length. */
static void singly(const unsigned char *s, const uint32_t *ends, uint32_t options, const uint32_t *lengths, size_t urls,
                   const unsigned char *out)
{
    size_t i, from = 0;
    for (i = 0; i < urls; i++) {
        unsigned char *one = placed(4, lengths[i]);
        notepage_answer a = notepage_sanitize_link(s ? s + from : s, ends[i] - from, options, one, lengths[i]);
        HOLDS(a.number == 0 && a.value == lengths[i] && (!lengths[i] || !memcmp(one, out, lengths[i])));
        if (lengths[i]) out += lengths[i];
        from = ends[i];
    }
}

static void try_links(void)
{
    const seed *from = some_of(&texts);
    size_t n, room, urls = below(20), lent = one_in(8) ? below(20) : urls + below(3), i, last = 0;
    unsigned char *s = input(0, one_in(2), from->text, from->text_length, &n), *out = output(1, &room);
    uint32_t *ends = (uint32_t *)(void *)placed(2, 4 * urls), *lengths = (uint32_t *)(void *)placed(3, 4 * lent);
    uint64_t before = sum(s, n);
    uint32_t options = (uint32_t)random64();
    notepage_answer a;
    for (i = 0; i < urls; i++) {
        last += below((n - last) / 2 + 2);
        if (last > n) last = n;
        ends[i] = one_in(100) ? (uint32_t)random64() : (uint32_t)last;
    }
    a = notepage_sanitize_links(s, n, ends, urls, options, out, room, lengths, lent);
    count(12, a.number);
    HOLDS(sum(s, n) == before && zero_behind(a, out, room));
    i = a.number ? 0 : urls;
    HOLDS(i == lent || all_are((const unsigned char *)(lengths + i), 4 * (lent - i), 0));
    if (!a.number) singly(s, ends, options, lengths, urls, out);
}

static void try_check(void)
{
    const seed *from = some_of(&notes);
    int as_it_is = one_in(2);
    size_t n, m;
    unsigned char *s = input(0, as_it_is, from->text, from->text_length, &n);
    unsigned char *e = input(1, as_it_is, from->events, from->events_length, &m);
    uint64_t before = sum(s, n) ^ sum(e, m);
    notepage_answer a = notepage_check(s, n, e, m);
    count(5, a.number);
    HOLDS((sum(s, n) ^ sum(e, m)) == before && a.number <= 7 && a.value <= m / NOTEPAGE_RECORD);
}

/* Also: a build refuses with 1 to 7 what the checker refuses, and nothing else, where the work bytes are enough. */
static void try_build(void)
{
    const seed *from = some_of(&notes);
    int as_it_is = !one_in(4);
    size_t n, m, room, lent = one_in(8) ? some_length(MOST) : NOTEPAGE_LEAST_WORK + below(3);
    unsigned char *s = input(0, as_it_is, from->text, from->text_length, &n);
    unsigned char *e = input(1, as_it_is, from->events, from->events_length, &m);
    unsigned char *out = output(2, &room), *work = placed(3, lent);
    uint64_t before = sum(s, n) ^ sum(e, m), page;
    uint32_t options = (uint32_t)random64();
    notepage_answer a, again, checked = notepage_check(s, n, e, m);
    if (lent) memset(work, 0xA5, lent);
    a = notepage_build(s, n, e, m, options, out, room, work, lent);
    count(6, a.number);
    HOLDS((sum(s, n) ^ sum(e, m)) == before && zero_behind(a, out, room) && (!lent || all_are(work, lent, 0)));
    if (lent >= NOTEPAGE_LEAST_WORK)
        HOLDS(checked.number ? a.number == checked.number && a.value == checked.value : a.number == 0 || a.number >= 8);
    page = sum(out, room);
    again = notepage_build(s, n, e, m, options, out, room, work, lent);
    HOLDS(again.number == a.number && again.value == a.value && sum(out, room) == page);
}

static int same(notepage_read a, notepage_read b)
{
    return a.number == b.number && a.edition == b.edition && a.value == b.value && a.events == b.events;
}

static void try_read(void)
{
    const seed *from = some_of(&bundles);
    size_t n, t, e;
    unsigned char *s = input(0, one_in(2), from->text, from->text_length, &n);
    unsigned char *text, *events;
    uint64_t before = sum(s, n);
    notepage_read r;
    t = one_in(8) ? some_length(MOST) : NOTEPAGE_LEAST_READ + below(3);
    e = one_in(8) ? some_length(MOST) : NOTEPAGE_LEAST_READ + below(3);
    text = placed(1, t);
    events = placed(2, e);
    r = notepage_read_bundle(s, n, text, t, events, e);
    count(7, r.number);
    HOLDS(sum(s, n) == before);
    if (r.number) HOLDS((!t || all_are(text, t, 0)) && (!e || all_are(events, e, 0)));
    else HOLDS(all_are(text + r.value, t - r.value, 0) && all_are(events + r.events, e - r.events, 0));
}

static void try_write(void)
{
    const seed *from = some_of(&notes);
    int as_it_is = one_in(2);
    size_t n, m, room;
    unsigned char *s = input(0, as_it_is, from->text, from->text_length, &n);
    unsigned char *e = input(1, as_it_is, from->events, from->events_length, &m), *out = output(2, &room);
    static unsigned char text[NOTEPAGE_LEAST_READ], events[NOTEPAGE_LEAST_READ];
    uint32_t edition = (uint32_t)random64();
    notepage_answer a = notepage_write_bundle(s, n, e, m, edition, out, room);
    notepage_read r;
    count(8, a.number);
    HOLDS(zero_behind(a, out, room));
    if (a.number) return;
    r = notepage_read_bundle(out, a.value, text, sizeof text, events, sizeof events);
    HOLDS(r.number == 0 && r.edition == edition && r.value == n && r.events == m);
    HOLDS((!n || !memcmp(text, s, n)) && (!m || !memcmp(events, e, m)));
}

/* However the bytes are cut: the same as in one part. */
static void try_parts(void)
{
    const seed *from = some_of(&bundles);
    size_t n, at = 0, part, turns = 0;
    unsigned char *s = input(0, one_in(2), from->text, from->text_length, &n);
    size_t t = one_in(9) ? some_length(MOST) : NOTEPAGE_LEAST_READ;
    size_t e = one_in(9) ? some_length(MOST) : NOTEPAGE_LEAST_READ;
    unsigned char *text = placed(1, t), *events = placed(2, e);
    notepage_reader reader = notepage_bundle_reader();
    notepage_read cut, one;
    uint64_t text_sum, event_sum;
    while (at < n && turns++ < 40) {
        part = one_in(5) ? 0 : 1 + below(turns == 40 ? 1 : 1000);
        if (part > n - at || turns == 40) part = n - at;
        reader = notepage_feed_bundle(reader, part ? s + at : NULL, part, text, t, events, e);
        at += part;
    }
    reader = notepage_end_bundle(reader, text, t, events, e);
    cut = notepage_bundle_so_far(reader);
    count(9, cut.number);
    text_sum = sum(text, t);
    event_sum = sum(events, e);
    reader = notepage_feed_bundle(notepage_bundle_reader(), s, n, text, t, events, e);
    one = notepage_bundle_so_far(notepage_end_bundle(reader, text, t, events, e));
    HOLDS(same(cut, one) && sum(text, t) == text_sum && sum(events, e) == event_sum);
}

/* A state that no call made: any numbers. The calls end, and write only what was lent. */
static void try_wild_state(void)
{
    const seed *from = some_of(&bundles);
    size_t n, i;
    unsigned char *s = input(0, one_in(2), from->text, from->text_length, &n);
    unsigned char *text = placed(1, NOTEPAGE_LEAST_READ), *events = placed(2, NOTEPAGE_LEAST_READ), *bytes;
    notepage_reader reader;
    bytes = (unsigned char *)&reader;
    for (i = 0; i < sizeof reader; i++) bytes[i] = (unsigned char)(one_in(3) ? 0 : random64());
    if (one_in(2)) reader.done = 0;
    reader = notepage_feed_bundle(reader, s, n, text, NOTEPAGE_LEAST_READ, events, NOTEPAGE_LEAST_READ);
    reader = notepage_end_bundle(reader, text, NOTEPAGE_LEAST_READ, events, NOTEPAGE_LEAST_READ);
    HOLDS(notepage_bundle_so_far(reader).number != NOTEPAGE_MORE);
    answered[10][0]++;
}

static void report(unsigned long calls)
{
    static const char *const names[] = {"escape",        "sanitize",  "sanitize_link",   "sanitize_image",
                                        "identity",      "check",     "build",           "read_bundle",
                                        "write_bundle",  "in parts",  "a made-up state", "normalize",
                                        "sanitize_links"};
    size_t call, number;
    for (call = 0; call < sizeof names / sizeof *names; call++) {
        printf("%-16s", names[call]);
        for (number = 0; number <= 12; number++)
            if (answered[call][number]) printf(" %u: %lu", (unsigned)number, answered[call][number]);
        printf("\n");
    }
    printf("%lu calls; buffers: %lu empty, %lu of these NULL, ", calls, empties, nulls);
    printf("%lu at a guard page, %lu of these unaligned, %lu on the heap\n", guarded, unaligned, watched);
}

int main(int words, char **word)
{
    unsigned long calls, i;
    if (words != 4) give_up("usage: fuzz CALLS SEED REQUESTS");
    calls = strtoul(word[1], NULL, 10);
    state = strtoul(word[2], NULL, 10) * 2654435761u + 88172645463325252u;
    make_arenas();
    learn(word[3]);
    for (i = 0; i < calls; i++) {
        size_t call = below(13);
        if (call < 5) try_text(call);
        else if (call == 5) try_check();
        else if (call == 6) try_build();
        else if (call == 7) try_read();
        else if (call == 8) try_write();
        else if (call == 9) try_parts();
        else if (call == 10) try_wild_state();
        else if (call == 11) try_normalize();
        else try_links();
        if (failed) break;
    }
    report(i);
    return ended();
}
