/* Every stored request of the program `calls`, made through C: the answers, and every byte of each lent buffer, are
 * those that are stored. usage: replay REQUESTS ANSWERS. A request is 32 bytes, then the text, then the events; an
 * answer 24 bytes, then the buffers as the call left them. All numbers are little endian. It runs on a stack of its
 * own, which is painted before each call: the deepest byte that lost its paint says how much stack the call took. */
#define _DEFAULT_SOURCE
#include <pthread.h>
#include <sys/mman.h>

#include "test.h"

/* The stack, and how much of it right below the frame that paints keeps what it holds. */
#define STACK 262144u
#define OWN 1024u
#define PAINT 0xA5

#define MOST_ROOM 524288u
#define MOST_WORK 131072u

typedef struct request {
    unsigned op, bits, ending, names;
    size_t text_length, events_length, room, work;
    uint32_t edition;
    const unsigned char *text, *events;
} request;

/* An answer's head. The last two are the lengths of both buffers; of work bytes, whether all are zero. */
typedef struct head {
    uint32_t number;
    size_t value, second;
    uint32_t edition;
    size_t room, work;
} head;

/* One byte more than is ever lent: the one behind what is lent stays as it was. */
static unsigned char out[MOST_ROOM + 1], second[4 * MOST_WORK + 1];
static uint32_t ends[MOST_WORK / 4], lengths[MOST_WORK + 1];

static uint32_t u32(const unsigned char *s)
{
    return (uint32_t)s[0] | (uint32_t)s[1] << 8 | (uint32_t)s[2] << 16 | (uint32_t)s[3] << 24;
}

static head plain(notepage_answer a, size_t room, size_t work)
{
    head h = {a.number, a.value, 0, 0, room, work};
    return h;
}

static head of_normalized(notepage_normalized n, size_t room)
{
    head h = {n.number, n.value, n.visits, 0, room, 0};
    return h;
}

static head of_read(notepage_read r, const request *q)
{
    head h = {r.number, r.value, r.events, r.edition, q->room, q->work};
    if (r.number == NOTEPAGE_MORE) h.room = h.work = 0;
    return h;
}

static head build(const request *q)
{
    static const uint32_t endings[] = {NOTEPAGE_LF, NOTEPAGE_CR, NOTEPAGE_CR_LF};
    uint32_t options = q->bits & 15u;
    notepage_answer a;
    options |= endings[q->ending % 3] | (q->names == 4 ? NOTEPAGE_HTML4 : NOTEPAGE_HTML5);
    a = notepage_build(q->text, q->text_length, q->events, q->events_length, options, out, q->room, second, q->work);
    return plain(a, q->room, all_are(second, q->work, 0) ? 1 : 2);
}

static head in_parts(const request *q)
{
    notepage_reader r = notepage_bundle_reader();
    size_t listed, at = 0, n;
    for (listed = 0; listed + 4 <= q->events_length; listed += 4) {
        n = u32(q->events + listed);
        r = notepage_feed_bundle(r, q->text + at, n, out, q->room, second, q->work);
        at += n;
    }
    if (q->bits & 1u) r = notepage_end_bundle(r, out, q->room, second, q->work);
    if (q->bits & 2u) {
        r = notepage_feed_bundle(r, (const unsigned char *)"ZZZ", 3, out, q->room, second, q->work);
        r = notepage_end_bundle(r, out, q->room, second, q->work);
    }
    return of_read(notepage_bundle_so_far(r), q);
}

/* The ends are words of the request; the lengths, as little endian bytes, are the second buffer. */
static head links(const request *q)
{
    size_t count = q->events_length / 4, i;
    notepage_answer a;
    for (i = 0; i < count; i++) ends[i] = u32(q->events + 4 * i);
    memset(lengths, 0xA5, 4 * (q->work + 1));
    a = notepage_sanitize_links(q->text, q->text_length, ends, count, q->bits, out, q->room, lengths, q->work);
    for (i = 0; i < 4 * q->work; i++) second[i] = (unsigned char)(lengths[i / 4] >> 8 * (i % 4));
    HOLDS(lengths[q->work] == 0xA5A5A5A5u);
    return plain(a, q->room, 4 * q->work);
}

static head made(const request *q)
{
    const unsigned char *t = q->text, *e = q->events;
    size_t n = q->text_length, m = q->events_length;
    switch (q->op) {
    case 1: return plain(notepage_escape(t, n, q->bits, out, q->room), q->room, 0);
    case 2: return plain(notepage_sanitize(t, n, q->bits, out, q->room), q->room, 0);
    case 3: return plain(notepage_sanitize_link(t, n, q->bits, out, q->room), q->room, 0);
    case 4: return plain(notepage_sanitize_image(t, n, q->bits, out, q->room), q->room, 0);
    case 5: return plain(notepage_identity(t, n, out, q->room), q->room, 0);
    case 6: return plain(notepage_check(t, n, e, m), 0, 0);
    case 7: return build(q);
    case 8: return of_read(notepage_read_bundle(t, n, out, q->room, second, q->work), q);
    case 9: return plain(notepage_write_bundle(t, n, e, m, q->edition, out, q->room), q->room, 0);
    case 10: return in_parts(q);
    case 11: return links(q);
    case 12: return of_normalized(notepage_normalize(t, n, out, q->room), q->room);
    default: give_up("a request of a call that this test does not know");
    }
    return plain(notepage_check(NULL, 0, NULL, 0), 0, 0);
}

/* The request at a place, whose text and events stand where they are stored, aligned or not. */
static request taken(const unsigned char *s)
{
    request q;
    q.op = s[0];
    q.bits = s[1];
    q.ending = s[2];
    q.names = s[3];
    q.text_length = u32(s + 4);
    q.events_length = u32(s + 8);
    q.room = u32(s + 12);
    q.work = u32(s + 16);
    q.edition = u32(s + 20);
    q.text = s + 32;
    q.events = q.text + q.text_length;
    if (q.room > MOST_ROOM || q.work > MOST_WORK) give_up("a request that is too large");
    return q;
}

static int same_head(head h, const unsigned char *s)
{
    return h.number == u32(s) && h.value == u32(s + 4) && h.second == u32(s + 8) && h.edition == u32(s + 12)
        && h.room == u32(s + 16) && h.work == u32(s + 20);
}

static unsigned char *stack;
static size_t deepest;

/* The request, made on a painted stack. */
static head measured(const request *q)
{
    unsigned char here;
    unsigned char *top = &here, *at = stack;
    head h;
    memset(stack, PAINT, (size_t)(top - stack) - OWN);
    h = made(q);
    while (at < top && *at == PAINT) at++;
    if (deepest < (size_t)(top - at)) deepest = (size_t)(top - at);
    return h;
}

/* The answer's length in the store; 0 where it is another. */
static size_t compared(const request *q, const unsigned char *answer, size_t left)
{
    head h;
    size_t both = q->op == 8 || q->op == 10 ? q->work : q->op == 11 ? 4 * q->work : 0, room = q->op == 6 ? 0 : q->room;
    memset(out, 0xA5, q->room + 1);
    memset(second, 0xA5, 4 * q->work + 1);
    h = measured(q);
    if (out[q->room] != 0xA5 || second[q->op == 11 ? 4 * q->work : q->work] != 0xA5) return 0;
    if (h.number == NOTEPAGE_MORE) both = room = 0;
    if (left < 24 + room + both || !same_head(h, answer)) return 0;
    return memcmp(out, answer + 24, room) || memcmp(second, answer + 24 + room, both) ? 0 : 24 + room + both;
}

static const char *request_file, *answer_file;

static void *replay(void *unused)
{
    size_t length, stored, at = 0, from = 0, n;
    unsigned char *requests = whole_file(request_file, &length), *answers = whole_file(answer_file, &stored);
    while (at + 32 <= length) {
        request q = taken(requests + at);
        n = compared(&q, answers + from, stored - from);
        holds(n != 0, "a stored answer");
        if (n == 0) break;
        at += 32 + q.text_length + q.events_length;
        from += n;
    }
    HOLDS(at == length && from == stored);
    free(requests);
    free(answers);
    return unused;
}

int main(int count, char **words)
{
    pthread_attr_t own;
    pthread_t thread;
    if (count != 3) give_up("usage: replay REQUESTS ANSWERS");
    request_file = words[1];
    answer_file = words[2];
    stack = (unsigned char *)mmap(NULL, STACK, PROT_READ | PROT_WRITE, MAP_PRIVATE | MAP_ANONYMOUS, -1, 0);
    if ((void *)stack == MAP_FAILED || pthread_attr_init(&own) || pthread_attr_setstack(&own, stack, STACK)
        || pthread_create(&thread, &own, replay, NULL) || pthread_join(thread, NULL))
        give_up("no stack of its own");
    printf("the deepest call took %lu bytes of stack\n", (unsigned long)deepest);
    HOLDS(deepest <= NOTEPAGE_STACK);
    return ended();
}
