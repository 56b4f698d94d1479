/* Each call of the library, by hand. usage: calls FOLDER, that of the repository: its samples are read. */
#include "test.h"

#define ROOM 4096u
#define READ NOTEPAGE_LEAST_READ

/* One byte more than is lent of the output: it stays as it was. */
static unsigned char out[ROOM + 1], work[NOTEPAGE_LEAST_WORK], text[READ], events[READ], bundle[NOTEPAGE_MOST_BUNDLE];
static const char *folder;

typedef notepage_answer (*text_call)(const unsigned char *, size_t, unsigned char *, size_t);

static notepage_answer encoded(const unsigned char *s, size_t n, unsigned char *d, size_t room)
{
    return notepage_escape(s, n, NOTEPAGE_ENCODE, d, room);
}

static notepage_answer bare(const unsigned char *s, size_t n, unsigned char *d, size_t room)
{
    return notepage_escape(s, n, 0, d, room);
}

static notepage_answer quoted(const unsigned char *s, size_t n, unsigned char *d, size_t room)
{
    return notepage_escape(s, n, NOTEPAGE_ENCODE | NOTEPAGE_ESCAPE_APOSTROPHES, d, room);
}

static notepage_answer url(const unsigned char *s, size_t n, unsigned char *d, size_t room)
{
    return notepage_sanitize(s, n, 0, d, room);
}

static notepage_answer link_url(const unsigned char *s, size_t n, unsigned char *d, size_t room)
{
    return notepage_sanitize_link(s, n, 0, d, room);
}

static notepage_answer image_url(const unsigned char *s, size_t n, unsigned char *d, size_t room)
{
    return notepage_sanitize_image(s, n, 0, d, room);
}

static notepage_answer quoted_url(const unsigned char *s, size_t n, unsigned char *d, size_t room)
{
    return notepage_sanitize(s, n, NOTEPAGE_ESCAPE_APOSTROPHES, d, room);
}

static notepage_answer quoted_link(const unsigned char *s, size_t n, unsigned char *d, size_t room)
{
    return notepage_sanitize_link(s, n, NOTEPAGE_ESCAPE_APOSTROPHES, d, room);
}

static notepage_answer quoted_image(const unsigned char *s, size_t n, unsigned char *d, size_t room)
{
    return notepage_sanitize_image(s, n, NOTEPAGE_ESCAPE_APOSTROPHES, d, room);
}

static int is(notepage_answer a, uint32_t number, size_t value)
{
    return a.number == number && a.value == value;
}

/* The answer is these bytes, with zeros behind them to the end of the room. */
static int gives(notepage_answer a, const char *bytes, size_t length, size_t room)
{
    return is(a, NOTEPAGE_OK, length) && !memcmp(out, bytes, length) && all_are(out + length, room - length, 0);
}

/* In exactly enough room, in more, and in too little; `call` writes `to` for `from`. */
static int turns(text_call call, const char *from, const char *to)
{
    const unsigned char *s = (const unsigned char *)from;
    size_t n = strlen(from), m = strlen(to);
    memset(out, 0xA5, sizeof out);
    if (!gives(call(s, n, out, ROOM), to, m, ROOM) || out[ROOM] != 0xA5) return 0;
    memset(out, 0xA5, sizeof out);
    if (!gives(call(s, n, out, m), to, m, m) || out[m] != 0xA5) return 0;
    memset(out, 0xA5, sizeof out);
    return m == 0 || (is(call(s, n, out, m - 1), NOTEPAGE_NO_ROOM, 0) && all_are(out, m - 1, 0) && out[m - 1] == 0xA5);
}

static int refuses_texts(text_call call)
{
    unsigned char *longer = lend(NOTEPAGE_MOST_TEXT + 1);
    unsigned char *most = lend(NOTEPAGE_MOST_TEXT);
    int right;
    memset(longer, 'a', NOTEPAGE_MOST_TEXT + 1);
    right = is(call(longer, NOTEPAGE_MOST_TEXT + 1, out, ROOM), NOTEPAGE_WRONG_LENGTH, 0) && all_are(out, ROOM, 0);
    right = right && is(call(longer, NOTEPAGE_MOST_TEXT, most, NOTEPAGE_MOST_TEXT), NOTEPAGE_OK, NOTEPAGE_MOST_TEXT);
    memset(out, 0xA5, ROOM);
    right = right && is(call((const unsigned char *)"caf\xE9", 4, out, ROOM), NOTEPAGE_NOT_UTF8, 0);
    right = right && all_are(out, ROOM, 0) && is(call(NULL, 0, NULL, 0), NOTEPAGE_OK, 0);
    free(longer);
    free(most);
    return right;
}

static void texts(void)
{
    static const text_call all[] = {encoded,  bare,      quoted,     url,         link_url,
                                    image_url, quoted_url, quoted_link, quoted_image, notepage_identity};
    size_t i;
    HOLDS(turns(encoded, "a<b> & \"c\"", "a&lt;b&gt; &amp; &quot;c&quot;"));
    HOLDS(turns(bare, "a<b> & \"c\"", "a<b> & \"c\""));
    HOLDS(gives(notepage_escape((const unsigned char *)"\0", 1, NOTEPAGE_ENCODE, out, 4), "\xEF\xBF\xBD", 3, 4));
    HOLDS(gives(notepage_escape((const unsigned char *)"\0<", 2, 0, out, 4), "\xEF\xBF\xBD<", 4, 4));
    HOLDS(gives(notepage_escape((const unsigned char *)"<", 1, ~0u, out, 4), "&lt;", 4, 4));
    HOLDS(turns(url, "a b&c", "a%20b&amp;c"));
    HOLDS(turns(url, "%%20", "%25%20"));
    HOLDS(turns(url, "javascript:x", "javascript:x"));
    HOLDS(turns(link_url, "JAVASCRIPT:x", ""));
    HOLDS(turns(link_url, "mailto:a@b.c", "mailto:a@b.c"));
    HOLDS(turns(link_url, "a?b:c", "a?b:c"));
    HOLDS(turns(image_url, "mailto:a@b.c", ""));
    HOLDS(turns(image_url, "HTTPS:x", "HTTPS:x"));
    HOLDS(turns(encoded, "it's", "it's"));
    HOLDS(turns(quoted, "it's \"<\"", "it&#39;s &quot;&lt;&quot;"));
    HOLDS(gives(notepage_escape((const unsigned char *)"'", 1, NOTEPAGE_ESCAPE_APOSTROPHES, out, 4), "'", 1, 4));
    HOLDS(turns(url, "a'b", "a'b"));
    HOLDS(turns(quoted_url, "a'b%27&", "a&#39;b%27&amp;"));
    HOLDS(turns(quoted_link, "javascript':x", ""));
    HOLDS(turns(quoted_link, "http:x'y", "http:x&#39;y"));
    HOLDS(turns(quoted_image, "x'y:z", ""));
    HOLDS(turns(quoted_image, "x'y/z:", "x&#39;y/z:"));
    HOLDS(turns(notepage_identity, " a\t\n b ", "A B"));
    for (i = 0; i < sizeof all / sizeof *all; i++) HOLDS(refuses_texts(all[i]));
}

static int normalizes(const char *from, const char *to, size_t visits)
{
    const unsigned char *s = (const unsigned char *)from;
    size_t n = strlen(from), m = strlen(to);
    notepage_normalized a;
    memset(out, 0xA5, sizeof out);
    a = notepage_normalize(s, n, out, ROOM);
    if (a.number || a.value != m || a.visits != visits || memcmp(out, to, m)) return 0;
    if (!all_are(out + m, ROOM - m, 0) || out[ROOM] != 0xA5 || m == 0) return m == 0;
    memset(out, 0xA5, sizeof out);
    a = notepage_normalize(s, n, out, m - 1);
    return a.number == NOTEPAGE_NO_ROOM && a.value == 0 && a.visits == 0 && all_are(out, m - 1, 0) && out[m - 1] == 0xA5;
}

static notepage_answer normalized(const unsigned char *s, size_t n, unsigned char *d, size_t room)
{
    notepage_normalized a = notepage_normalize(s, n, d, room);
    notepage_answer same;
    same.number = a.number;
    same.value = a.value;
    return same;
}

static void normal_urls(void)
{
    HOLDS(normalizes("", "", 0));
    HOLDS(normalizes("\xC3\xA9", "%C3%A9", 1));
    HOLDS(normalizes("%20", "%20", 1));
    HOLDS(normalizes("%%20", "%25%20", 2));
    HOLDS(normalizes("%2", "%252", 2));
    HOLDS(normalizes("a b&c", "a%20b&c", 5));
    HOLDS(refuses_texts(normalized));
}

/* Of the byte that needs most, in the room that is always enough, and in one byte less. */
static int takes(text_call call, unsigned char byte, size_t most)
{
    unsigned char *s = lend(NOTEPAGE_MOST_TEXT), *d = lend(most * NOTEPAGE_MOST_TEXT);
    int right;
    memset(s, byte, NOTEPAGE_MOST_TEXT);
    right = is(call(s, NOTEPAGE_MOST_TEXT, d, most * NOTEPAGE_MOST_TEXT), NOTEPAGE_OK, most * NOTEPAGE_MOST_TEXT)
        && is(call(s, NOTEPAGE_MOST_TEXT, d, most * NOTEPAGE_MOST_TEXT - 1), NOTEPAGE_NO_ROOM, 0);
    free(s);
    free(d);
    return right;
}

static void rooms(void)
{
    HOLDS(takes(encoded, '"', NOTEPAGE_ESCAPE_ROOM));
    HOLDS(takes(bare, 0, 3));
    HOLDS(takes(url, '&', NOTEPAGE_SANITIZE_ROOM));
    HOLDS(takes(quoted_link, '&', NOTEPAGE_SANITIZE_ROOM));
    HOLDS(takes(image_url, '&', NOTEPAGE_SANITIZE_ROOM));
    HOLDS(takes(normalized, ' ', NOTEPAGE_NORMALIZE_ROOM));
}

/* The list's answer, its bytes, and the lengths with zeros behind them in four places. */
static int lists(const char *urls, const uint32_t *ends, size_t count, const char *bytes, const uint32_t *lengths)
{
    uint32_t places[5];
    size_t n = strlen(urls), m = strlen(bytes), i;
    memset(out, 0xA5, sizeof out);
    memset(places, 0xA5, sizeof places);
    if (!gives(notepage_sanitize_links((const unsigned char *)urls, n, ends, count, 0, out, ROOM, places, 4), bytes, m, ROOM))
        return 0;
    for (i = 0; i < 4; i++)
        if (places[i] != (i < count ? lengths[i] : 0)) return 0;
    return out[ROOM] == 0xA5 && places[4] == 0xA5A5A5A5u;
}

/* A refusal, after which output and lengths are zero. */
static int list_refused(const char *urls, const uint32_t *ends, size_t count, size_t room, size_t given, uint32_t number,
                        size_t place)
{
    uint32_t places[4];
    notepage_answer a;
    memset(out, 0xA5, sizeof out);
    memset(places, 0xA5, sizeof places);
    a = notepage_sanitize_links((const unsigned char *)urls, strlen(urls), ends, count, 0, out, room, places, given);
    return is(a, number, place) && all_are(out, room, 0) && out[room] == 0xA5
        && all_are((const unsigned char *)places, 4 * given, 0);
}

static void links(void)
{
    static const uint32_t ends[] = {2, 3, 3}, cut[] = {4, 6}, falls[] = {2, 1}, past[] = {1, 9}, none[] = {0, 0, 0};
    static const uint32_t triple[] = {4, 1, 0}, scheme[] = {4, 0};
    HOLDS(lists("%20", ends, 3, "%2520", triple));
    HOLDS(lists("http:x", cut, 2, "http", scheme));
    HOLDS(lists("javascript:x", none, 3, "", none));
    HOLDS(lists("behind", NULL, 0, "", none));
    HOLDS(is(notepage_sanitize_links(NULL, 0, NULL, 0, 0, NULL, 0, NULL, 0), NOTEPAGE_OK, 0));
    HOLDS(list_refused("abc", ends, 3, 9, 2, NOTEPAGE_WRONG_LENGTH, 0));
    HOLDS(list_refused("abc", falls, 2, 9, 4, NOTEPAGE_WRONG_LENGTH, 1));
    HOLDS(list_refused("abc", past, 2, 9, 4, NOTEPAGE_WRONG_LENGTH, 1));
    HOLDS(list_refused("caf\xE9", ends, 3, 9, 4, NOTEPAGE_NOT_UTF8, 0));
    HOLDS(list_refused("a\xC3\xA9", ends, 3, 9, 4, NOTEPAGE_FIELD, 0));
    HOLDS(list_refused("aaa&", cut, 1, 7, 4, NOTEPAGE_NO_ROOM, 0));
}

/* Event records, one behind the other. */
static unsigned char list[64 * NOTEPAGE_RECORD];
static size_t listed;

static void record(unsigned char kind, unsigned char name, unsigned char from, unsigned char to)
{
    unsigned char *r = list + listed;
    memset(r, 0, NOTEPAGE_RECORD);
    r[0] = kind;
    r[1] = name;
    r[4] = from;
    r[8] = to;
    listed += NOTEPAGE_RECORD;
}

static void element(unsigned char name, unsigned char from, unsigned char to)
{
    record(0, name, 0, 0);
    record(1, name, from, to);
}

static void paragraph(unsigned char from, unsigned char to)
{
    record(0, 12, 0, 0);
    element(5, from, to);
    record(1, 12, from, to);
}

static notepage_answer build(const char *note, uint32_t options, size_t room)
{
    memset(out, 0xA5, sizeof out);
    memset(work, 0xA5, sizeof work);
    return notepage_build((const unsigned char *)note, strlen(note), list, listed, options, out, room, work,
                          sizeof work);
}

/* The page, whatever the work bytes held; they are zero afterwards. */
static int shows(const char *note, uint32_t options, const char *page)
{
    int right = gives(build(note, options, ROOM), page, strlen(page), ROOM);
    return right && out[ROOM] == 0xA5 && all_are(work, sizeof work, 0);
}

static void one_paragraph(void)
{
    const unsigned char *note = (const unsigned char *)"a\n";
    listed = 0;
    paragraph(0, 1);
    element(3, 1, 2);
    HOLDS(is(notepage_check(note, 2, list, listed), NOTEPAGE_OK, 0));
    HOLDS(shows("a\n", 0, "<p>a</p>\n"));
    HOLDS(is(build("a\n", 0, 9), NOTEPAGE_OK, 9) && out[9] == 0xA5);
    HOLDS(is(build("a\n", 0, 8), NOTEPAGE_NO_ROOM, 5) && all_are(out, 8, 0) && out[8] == 0xA5);
    HOLDS(is(notepage_build(note, 2, list, listed, 0, out, ROOM, work, sizeof work - 1), NOTEPAGE_WRONG_LENGTH, 0));
    HOLDS(is(notepage_check(note, 2, list, NOTEPAGE_RECORD), NOTEPAGE_NESTING, 1));
    HOLDS(is(notepage_check(note, 2, list, NOTEPAGE_RECORD - 1), NOTEPAGE_WRONG_LENGTH, 0));
    HOLDS(is(notepage_check(note, 0, list, listed), NOTEPAGE_FIELD, 2));
    HOLDS(is(notepage_check(NULL, 0, NULL, 0), NOTEPAGE_OK, 0));
    HOLDS(is(notepage_build(NULL, 0, NULL, 0, 0, NULL, 0, work, sizeof work), NOTEPAGE_OK, 0));
}

/* An element that holds one other, which takes the whole note. */
static void nested(unsigned char outer, unsigned char inner, const char *note)
{
    record(0, outer, 0, 0);
    element(inner, 0, (unsigned char)strlen(note));
    record(1, outer, 0, (unsigned char)strlen(note));
}

static void media(unsigned char name, const char *note)
{
    unsigned char n = (unsigned char)strlen(note);
    listed = 0;
    record(0, 12, 0, 0);
    record(0, name, 0, 0);
    element(47, 0, 0);
    record(0, 49, 0, 0);
    record(0, 50, 0, 0);
    element(5, 0, n);
    record(1, 50, 0, n);
    record(1, 49, 0, n);
    record(1, name, 0, n);
    record(1, 12, 0, n);
}

static void options(void)
{
    listed = 0;
    nested(35, 36, "<b>");
    HOLDS(shows("<b>", 0, "&lt;b&gt;"));
    HOLDS(shows("<b>", NOTEPAGE_ALLOW_DANGEROUS_HTML, "<b>"));
    HOLDS(shows("<b>", ~(uint32_t)NOTEPAGE_ALLOW_DANGEROUS_HTML, "&lt;b&gt;"));
    listed = 0;
    nested(35, 36, "<b c='d'>");
    HOLDS(shows("<b c='d'>", NOTEPAGE_ESCAPE_APOSTROPHES, "&lt;b c=&#39;d&#39;&gt;"));
    HOLDS(shows("<b c='d'>", NOTEPAGE_ALLOW_DANGEROUS_HTML | NOTEPAGE_ESCAPE_APOSTROPHES, "<b c='d'>"));
    media(45, "x:y");
    HOLDS(shows("x:y", 0, "<p><a href=\"\"></a></p>"));
    HOLDS(shows("x:y", NOTEPAGE_ALLOW_DANGEROUS_PROTOCOL, "<p><a href=\"x:y\"></a></p>"));
    HOLDS(shows("x:y", NOTEPAGE_ALLOW_ANY_IMG_SRC | NOTEPAGE_ALLOW_DANGEROUS_HTML, "<p><a href=\"\"></a></p>"));
    media(46, "x:y");
    HOLDS(shows("x:y", NOTEPAGE_ALLOW_DANGEROUS_HTML, "<p><img src=\"\" alt=\"\" /></p>"));
    HOLDS(shows("x:y", NOTEPAGE_ALLOW_ANY_IMG_SRC, "<p><img src=\"x:y\" alt=\"\" /></p>"));
    listed = 0;
    paragraph(0, 1);
    paragraph(1, 2);
    HOLDS(shows("ab", NOTEPAGE_LF, "<p>a</p>\n<p>b</p>"));
    HOLDS(shows("ab", NOTEPAGE_CR, "<p>a</p>\r<p>b</p>"));
    HOLDS(shows("ab", NOTEPAGE_CR_LF, "<p>a</p>\r\n<p>b</p>"));
    HOLDS(shows("ab", NOTEPAGE_CR | NOTEPAGE_CR_LF, "<p>a</p>\n<p>b</p>"));
    listed = 0;
    record(0, 12, 0, 0);
    record(0, 7, 0, 0);
    element(8, 0, 0);
    element(11, 0, 4);
    record(1, 7, 0, 4);
    record(1, 12, 0, 4);
    HOLDS(shows("lang", NOTEPAGE_HTML5, "<p>\xE2\x9F\xA8</p>"));
    HOLDS(shows("lang", NOTEPAGE_HTML4, "<p>\xE2\x8C\xA9</p>"));
}

static unsigned char *file(const char *name, size_t *length)
{
    return file_in(folder, name, length);
}

static int reads(notepage_read r, uint32_t number, size_t value, size_t event_bytes, uint32_t edition)
{
    return r.number == number && r.value == value && r.events == event_bytes && r.edition == edition;
}

static notepage_read read_whole(const unsigned char *bytes, size_t length)
{
    memset(text, 0xA5, READ);
    memset(events, 0xA5, READ);
    return notepage_read_bundle(bytes, length, text, READ, events, READ);
}

/* In parts of so many bytes, with an empty part before each, from a reader that is given. */
static notepage_reader feed(notepage_reader reader, const unsigned char *bytes, size_t length, size_t size)
{
    size_t at, part;
    for (at = 0; at < length; at += part) {
        part = length - at < size ? length - at : size;
        reader = notepage_feed_bundle(reader, NULL, 0, text, READ, events, READ);
        reader = notepage_feed_bundle(reader, bytes + at, part, text, READ, events, READ);
    }
    return reader;
}

static notepage_read in_parts(const unsigned char *bytes, size_t length, size_t size)
{
    notepage_reader reader = notepage_bundle_reader();
    memset(text, 0xA5, READ);
    memset(events, 0xA5, READ);
    reader = notepage_end_bundle(feed(reader, bytes, length, size), text, READ, events, READ);
    return notepage_bundle_so_far(reader);
}

static void sample_note(void)
{
    size_t note_length, list_length, bundle_length, page_length;
    unsigned char *note = file("samples/note.md", &note_length), *records = file("samples/note.events", &list_length);
    unsigned char *packed = file("samples/note.bundle", &bundle_length);
    unsigned char *page = file("crates/notepage/stdout", &page_length);
    notepage_answer a;
    memset(bundle, 0xA5, sizeof bundle);
    a = notepage_write_bundle(note, note_length, records, list_length, 1, bundle, sizeof bundle);
    HOLDS(is(a, NOTEPAGE_OK, bundle_length) && !memcmp(bundle, packed, bundle_length));
    HOLDS(all_are(bundle + bundle_length, sizeof bundle - bundle_length, 0));
    a = notepage_write_bundle(note, note_length, records, list_length, 1, bundle, bundle_length - 1);
    HOLDS(is(a, NOTEPAGE_NO_ROOM, 0) && all_are(bundle, bundle_length - 1, 0));
    a = notepage_write_bundle(note, note_length, records, list_length - 1, 1, bundle, sizeof bundle);
    HOLDS(is(a, NOTEPAGE_WRONG_LENGTH, 0));
    a = notepage_write_bundle(note, note_length, records, list_length, 0xFEDCBA98u, bundle, sizeof bundle);
    HOLDS(reads(read_whole(bundle, a.value), NOTEPAGE_OK, note_length, list_length, 0xFEDCBA98u));
    HOLDS(reads(in_parts(bundle, a.value, 700), NOTEPAGE_OK, note_length, list_length, 0xFEDCBA98u));
    HOLDS(reads(read_whole(packed, bundle_length), NOTEPAGE_OK, note_length, list_length, 1));
    HOLDS(!memcmp(text, note, note_length) && all_are(text + note_length, READ - note_length, 0));
    HOLDS(!memcmp(events, records, list_length) && all_are(events + list_length, READ - list_length, 0));
    a = notepage_build(text, note_length, events, list_length, 0, out, ROOM, work, sizeof work);
    HOLDS(is(a, NOTEPAGE_OK, page_length) && !memcmp(out, page, page_length));
    free(note);
    free(records);
    free(packed);
    free(page);
}

static void parts(void)
{
    size_t n, size;
    unsigned char *packed = file("samples/note.bundle", &n);
    notepage_reader reader, zero;
    memset(&zero, 0, sizeof zero);
    for (size = 1; size <= n; size = size * 3 / 2 + 1)
        HOLDS(reads(in_parts(packed, n, size), NOTEPAGE_OK, 575, 10240, 1));
    HOLDS(reads(in_parts(packed, n - 1, 512), NOTEPAGE_BROKEN, 0, 0, 0));
    HOLDS(reads(in_parts(NULL, 0, 1), NOTEPAGE_BROKEN, 0, 0, 0));
    reader = feed(zero, packed, n, 100);
    HOLDS(reads(notepage_bundle_so_far(reader), NOTEPAGE_MORE, 0, 0, 0));
    reader = notepage_feed_bundle(reader, NULL, 0, text, READ, events, READ);
    reader = notepage_end_bundle(reader, text, READ, events, READ);
    HOLDS(reads(notepage_bundle_so_far(reader), NOTEPAGE_OK, 575, 10240, 1));
    reader = notepage_end_bundle(feed(reader, packed, n, 600), text, READ, events, READ);
    HOLDS(reads(notepage_bundle_so_far(reader), NOTEPAGE_OK, 575, 10240, 1) && text[0] == '#');
    reader = notepage_feed_bundle(zero, packed, n, text, READ - 1, events, READ);
    HOLDS(reads(notepage_bundle_so_far(reader), NOTEPAGE_WRONG_LENGTH, 0, 0, 0));
    free(packed);
}

/* Each stored bundle that is refused: by the reader, or by the build of what was read. */
static int refused(const char *name, uint32_t number, size_t place)
{
    size_t n;
    unsigned char *bytes = file(name, &n);
    notepage_read whole = read_whole(bytes, n), late = in_parts(bytes, n, 333);
    notepage_answer a;
    free(bytes);
    if (whole.number != late.number || whole.value != late.value) return 0;
    if (whole.number)
        return whole.number == number && whole.value == place && all_are(text, READ, 0) && all_are(events, READ, 0);
    a = notepage_build(text, whole.value, events, whole.events, 0, out, ROOM, work, sizeof work);
    if (!is(a, number, place)) return 0;
    return number > NOTEPAGE_NO_LABEL || is(notepage_check(text, whole.value, events, whole.events), number, place);
}

static void samples(void)
{
    HOLDS(refused("samples/refused-02.bundle", NOTEPAGE_NOT_UTF8, 0));
    HOLDS(refused("samples/refused-03.bundle", NOTEPAGE_FIELD, 2));
    HOLDS(refused("samples/refused-04.bundle", NOTEPAGE_NESTING, 1));
    HOLDS(refused("samples/refused-05.bundle", NOTEPAGE_SLICE, 5));
    HOLDS(refused("samples/refused-06.bundle", NOTEPAGE_TOO_MANY, 384));
    HOLDS(refused("samples/refused-07.bundle", NOTEPAGE_NO_LABEL, 1));
    HOLDS(refused("samples/refused-08.bundle", NOTEPAGE_WORK_FULL, 5));
    HOLDS(refused("samples/refused-10.bundle", NOTEPAGE_BROKEN, 0));
    HOLDS(refused("samples/refused-11.bundle", NOTEPAGE_BAD_CHECK, 3));
    HOLDS(refused("samples/refused-12.bundle", NOTEPAGE_OTHER_EDITION, 2));
}

static void about(void)
{
    uint32_t number;
    HOLDS(notepage_version() == NOTEPAGE_VERSION);
    for (number = 0; number <= 12; number++)
        HOLDS(strcmp(notepage_refusal_text(number), notepage_refusal_text(13)) != 0);
    HOLDS(strcmp(notepage_refusal_text(NOTEPAGE_MORE), notepage_refusal_text(13)) != 0);
}

int main(int count, char **words)
{
    if (count != 2) give_up("usage: calls FOLDER");
    folder = words[1];
    about();
    texts();
    normal_urls();
    rooms();
    links();
    one_paragraph();
    options();
    sample_note();
    parts();
    samples();
    return ended();
}
