/* notepage: the pages of console notes, built by proved code. The C interface: C99, C++ and whatever calls C.
 *
 * Each function is proved: it ends with exactly the answer that is described here, and reads and writes no byte outside
 * the buffers that were lent to it. docs/PROMISES.md says where each promise stands. What no proof can ask of a C
 * caller, and a C caller must see to:
 *
 *   - Each pointer is valid for the length that stands behind it, for reading, or for writing where it is not const.
 *     NULL is right where the length is 0. A uint32_t is aligned as C has it; nothing else is asked. A length is below
 *     2^63 bytes.
 *   - A buffer that is written overlaps no other buffer of the same call. Two buffers that are only read may overlap.
 *     Nothing tests this: a page whose output lies over its text is another page, and no refusal says so.
 *   - Nobody else writes to a lent buffer while the call runs, or reads one that the call writes.
 *   - NOTEPAGE_STACK bytes of stack are free.
 *
 * Nothing is allocated, no file is touched, no global state is read or written: any number of threads may call at once.
 * The library is compiled for x86-64 Linux.
 */
#ifndef NOTEPAGE_H
#define NOTEPAGE_H

#include <stddef.h>
#include <stdint.h>

#ifdef __cplusplus
extern "C" {
#endif

/* The version of this header: 10,000 times the first number, 100 times the second, and the third. */
#define NOTEPAGE_VERSION 200u

/* ---- Sizes, in bytes where nothing else is said */

#define NOTEPAGE_MOST_TEXT 64000u        /* the text of a note, a URL, a label */
#define NOTEPAGE_RECORD 20u              /* an event record */
#define NOTEPAGE_MOST_EVENTS 3200u       /* event records of a note */
#define NOTEPAGE_MOST_EVENT_BYTES 64000u /* their bytes */
#define NOTEPAGE_LEAST_WORK 49152u       /* work bytes that a build is lent, at least */
#define NOTEPAGE_LEAST_READ 64000u       /* each of the reader's two buffers, at least */
#define NOTEPAGE_BLOCK 512u              /* a block of a bundle */
#define NOTEPAGE_MOST_BUNDLE 131584u     /* the largest bundle: 257 blocks */
#define NOTEPAGE_STACK 65536u            /* stack that a call takes, at most */

/* Room that is always enough: so many bytes for each byte of the text or the URL. With it no such call refuses with 9.
 * Each is reached, by a text of the one byte that is named. A page has no such number: docs/PROMISES.md. */
#define NOTEPAGE_ESCAPE_ROOM 6u    /* notepage_escape: " (without NOTEPAGE_ENCODE 3, NUL) */
#define NOTEPAGE_SANITIZE_ROOM 5u  /* notepage_sanitize, notepage_sanitize_link, notepage_sanitize_image: & */
#define NOTEPAGE_NORMALIZE_ROOM 3u /* notepage_normalize: a space */

/* ---- Answers */

/* The number is 0 where there is an answer, and the value is its length; else the number is the refusal's, and the
 * value its place: an event for 3 to 9 of a check or a build, counted from 0 (the count of events where the list ends
 * too early or the footnote section has no room), a URL of a list of links, counted from 0, a block for 10 to 12, else
 * 0. After a refusal every byte of a buffer that the call writes is zero; behind an answer the rest of it is. */
typedef struct notepage_answer {
    uint32_t number;
    size_t value;
} notepage_answer;

/* The same of a URL that is normalized, and how many characters were visited: a %, letter or digit, letter or digit that
 * is kept is one visit, any other character one. They are at most as many as the URL's bytes, and 0 after a refusal. */
typedef struct notepage_normalized {
    uint32_t number;
    size_t value;
    size_t visits;
} notepage_normalized;

/* The same of a bundle that is read: the value is the text's length, or the refusal's place. The events' length in
 * bytes and the edition are 0 after a refusal. */
typedef struct notepage_read {
    uint32_t number;
    uint32_t edition;
    size_t value;
    size_t events;
} notepage_read;

/* notepage_refusal_text says what each means. */
#define NOTEPAGE_OK 0u
#define NOTEPAGE_WRONG_LENGTH 1u
#define NOTEPAGE_NOT_UTF8 2u
#define NOTEPAGE_FIELD 3u
#define NOTEPAGE_NESTING 4u
#define NOTEPAGE_SLICE 5u
#define NOTEPAGE_TOO_MANY 6u
#define NOTEPAGE_NO_LABEL 7u
#define NOTEPAGE_WORK_FULL 8u
#define NOTEPAGE_NO_ROOM 9u
#define NOTEPAGE_BROKEN 10u
#define NOTEPAGE_BAD_CHECK 11u
#define NOTEPAGE_OTHER_EDITION 12u
/* No refusal: a bundle that comes in parts, of which more is wanted. */
#define NOTEPAGE_MORE 255u

/* ---- Options: added up. Bits that are not named here change nothing. */

#define NOTEPAGE_ENCODE 1u /* notepage_escape: & < > " are encoded; without it NUL alone is replaced */

#define NOTEPAGE_ALLOW_DANGEROUS_HTML 1u     /* notepage_build: raw HTML of the note stays */
#define NOTEPAGE_ALLOW_DANGEROUS_PROTOCOL 2u /* URLs of any scheme stay */
#define NOTEPAGE_ALLOW_ANY_IMG_SRC 4u        /* URLs of images with any scheme stay */
#define NOTEPAGE_ESCAPE_APOSTROPHES 8u       /* where HTML is encoded ' becomes &#39;; the sanitizers and escape too */
#define NOTEPAGE_LF 0x000u                   /* the line ending of a page whose note has none: LF */
#define NOTEPAGE_CR 0x100u                   /* CR (with the next one too: LF) */
#define NOTEPAGE_CR_LF 0x200u                /* CR LF */
#define NOTEPAGE_HTML5 0x00000u              /* &lang; and &rang; are U+27E8 and U+27E9 */
#define NOTEPAGE_HTML4 0x10000u              /* they are U+2329 and U+232A */

/* ---- A note */

/* Whether a text and its events meet the rules of a build. Refusals 1 to 7; the value of a yes is 0. */
notepage_answer notepage_check(const unsigned char *text, size_t text_length, const unsigned char *events,
                               size_t events_length);

/* The page of a note. `out` may have any length, `work` at least NOTEPAGE_LEAST_WORK. Refusals 1 to 9. The work bytes
 * are zero afterwards, whatever they held and whatever the answer. */
notepage_answer notepage_build(const unsigned char *text, size_t text_length, const unsigned char *events,
                               size_t events_length, uint32_t options, unsigned char *out, size_t out_length,
                               unsigned char *work, size_t work_length);

/* ---- A note's bundle */

/* Reads a bundle into two buffers of at least NOTEPAGE_LEAST_READ each. Refusals 1, 10, 11, 12. */
notepage_read notepage_read_bundle(const unsigned char *bundle, size_t bundle_length, unsigned char *text,
                                   size_t text_length, unsigned char *events, size_t events_length);

/* Writes the bundle of a text, its events and an edition; neither text nor events are judged. Refusals 1, 9. */
notepage_answer notepage_write_bundle(const unsigned char *text, size_t text_length, const unsigned char *events,
                                      size_t events_length, uint32_t edition, unsigned char *out, size_t out_length);

/* A bundle that comes in parts. The state goes from call to call by value, and its members are for the library alone.
 * One in which every byte is zero is one before the first part. */
typedef struct notepage_reader {
    uint32_t begun;
    uint32_t edition;
    uint32_t text;
    uint32_t events;
    uint32_t text_came;
    uint32_t events_came;
    uint32_t over;
    uint32_t done;
    size_t held;
    notepage_read answer;
    unsigned char rest[512];
} notepage_reader;

/* A reader before the first part. */
notepage_reader notepage_bundle_reader(void);

/* The next part, of any length, 0 too. The two buffers, of at least NOTEPAGE_LEAST_READ each, are lent at every call as
 * the call before left them; before the first they may hold anything. */
notepage_reader notepage_feed_bundle(notepage_reader reader, const unsigned char *part, size_t part_length,
                                     unsigned char *text, size_t text_length, unsigned char *events,
                                     size_t events_length);

/* No part follows. */
notepage_reader notepage_end_bundle(notepage_reader reader, unsigned char *text, size_t text_length,
                                    unsigned char *events, size_t events_length);

/* The answer so far: NOTEPAGE_MORE with all else 0, or that of notepage_read_bundle on all bytes that came, but that a
 * fault of a block goes before a wrong length of the whole. An answer stays, whatever is fed behind it. */
notepage_read notepage_bundle_so_far(notepage_reader reader);

/* ---- Texts: refusals 1, 2, 9, all at 0 where nothing else is said */

/* A text made safe for HTML. */
notepage_answer notepage_escape(const unsigned char *text, size_t text_length, uint32_t options, unsigned char *out,
                                size_t out_length);

/* A URL made safe for an attribute. Of the options NOTEPAGE_ESCAPE_APOSTROPHES counts, in the next two as well and
 * in notepage_sanitize_links. */
notepage_answer notepage_sanitize(const unsigned char *url, size_t url_length, uint32_t options, unsigned char *out,
                                  size_t out_length);

/* The same for a link: empty for a scheme that is not http, https, irc, ircs, mailto or xmpp. */
notepage_answer notepage_sanitize_link(const unsigned char *url, size_t url_length, uint32_t options,
                                       unsigned char *out, size_t out_length);

/* The same for an image: empty for a scheme that is not http or https. */
notepage_answer notepage_sanitize_image(const unsigned char *url, size_t url_length, uint32_t options,
                                        unsigned char *out, size_t out_length);

/* A URL percent-encoded and no more: not safe for an attribute yet. */
notepage_normalized notepage_normalize(const unsigned char *url, size_t url_length, unsigned char *out,
                                       size_t out_length);

/* A whole list of links: one text, and the places where its URLs end, each of which begins where the one before ends.
 * For each the bytes that notepage_sanitize_link writes, one behind the other, and their length; the value is the length
 * of all. `lengths` has a place for each URL, or more. Refusals: 1 where text or `lengths` have a wrong length (at 0),
 * or at the first URL that ends below the one before or past the text; 2; 3 at the first that ends inside a character;
 * 9 at the first whose bytes have no room. After a refusal `lengths` is zero too. */
notepage_answer notepage_sanitize_links(const unsigned char *text, size_t text_length, const uint32_t *ends,
                                        size_t ends_count, uint32_t options, unsigned char *out, size_t out_length,
                                        uint32_t *lengths, size_t lengths_count);

/* What a label is compared by. */
notepage_answer notepage_identity(const unsigned char *label, size_t label_length, unsigned char *out,
                                  size_t out_length);

/* ---- About the library */

/* The version of the library that is linked: NOTEPAGE_VERSION of its own header. */
uint32_t notepage_version(void);

/* What a number means, in a line. */
static inline const char *notepage_refusal_text(uint32_t number)
{
    switch (number) {
    case NOTEPAGE_OK: return "no refusal";
    case NOTEPAGE_WRONG_LENGTH: return "a lent buffer's length is wrong: text, events, work or one of the reader's";
    case NOTEPAGE_NOT_UTF8: return "the text is not UTF-8";
    case NOTEPAGE_FIELD: return "a field of an event breaks its rule, or its slice leaves the text or cuts a character";
    case NOTEPAGE_NESTING: return "an event stands where it may not, more than 64 are open, or one is left open";
    case NOTEPAGE_SLICE: return "a slice breaks its rule: a line ending, number, sequence, underline or reference";
    case NOTEPAGE_TOO_MANY: return "more than 128 definitions, or more than 64 footnote definitions";
    case NOTEPAGE_NO_LABEL: return "a link or image whose label nothing defines, or a call without its footnote";
    case NOTEPAGE_WORK_FULL: return "more than 16,384 bytes are open, held or kept: shorten what stands at the event";
    case NOTEPAGE_NO_ROOM: return "the answer is longer than the output that was lent";
    case NOTEPAGE_BROKEN: return "the bundle is broken, or has not the blocks that its header asks for";
    case NOTEPAGE_BAD_CHECK: return "a block's check is wrong";
    case NOTEPAGE_OTHER_EDITION: return "a block has another edition than block 0";
    case NOTEPAGE_MORE: return "no answer yet: more of the bundle is wanted";
    default: return "no number of this library";
    }
}

#ifdef __cplusplus
}
#endif

#endif
