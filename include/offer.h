/* The offer-module checker, as a C library: liboffer.a, which tools/archive writes.
 *
 * Every call ends, on every input, and expects nothing of what the bytes hold. A call takes no more memory than its
 * stack: 8 KB for offer_read, 339 KB for offer_findings and 371 KB for offer_message were measured (docs/BENCHMARKS.md).
 * The calls keep no state, so any number of threads may make them at once.
 *
 * A pointer and the length after it are a buffer: the pointer is not NULL, even where the length is 0, and the buffers
 * of one call do not overlap. */
#ifndef OFFER_H
#define OFFER_H

#include <stddef.h>
#include <stdint.h>

#ifdef __cplusplus
extern "C" {
#endif

/* The refusals of a document, and their places. */
enum {
    OFFER_ACCEPTED = 0,
    OFFER_TOO_LONG = 1,         /* over 65,535 bytes; place 0 */
    OFFER_TRUNCATED = 2,        /* the bytes end inside an item, or before one that is due; the item's start */
    OFFER_NON_CANONICAL = 3,    /* additional information 28 to 31, or a longer head than needed; the item's start */
    OFFER_UNEXPECTED = 4,       /* another kind, field count or case than is due; the item's start */
    OFFER_OUT_OF_RANGE = 5,     /* a list, string or number over its limit, or an empty name; the item's start */
    OFFER_OUTSIDE_ALPHABET = 6, /* a byte outside the string's alphabet; the string's start */
    OFFER_TOO_DEEP = 7,         /* an expression or formula would start at depth 33; its start */
    OFFER_TRAILING = 8,         /* bytes follow the document; the first of them */
    OFFER_UNKNOWN_VERSION = 9,  /* ir_version over 1; its start */
    OFFER_SHORT_SHEET = 10,     /* of offer_findings: the findings need more words than were lent; their number */
    OFFER_NO_LINE = 11,         /* of offer_message: there is no message of that number; the number */
    OFFER_SHORT_LINE = 12       /* of offer_message: the message is longer than the bytes lent; its length */
};

/* Whether the bytes are a document: OFFER_ACCEPTED, or the refusal's number. *place is the refusal's place, an offset
 * into the bytes, and 0 where the document is accepted. */
uint32_t offer_read(const uint8_t *doc, size_t doc_len, uint64_t *place);

/* What is found in a document, five words a finding: the place of the module, the site, two places and the number of the
 * cause, 0 where a word is unused; all errors by module, then all warnings by module.
 * OFFER_ACCEPTED where they were written from the front of the words: answer[0] errors and answer[1] warnings, and the words
 * past them keep their contents. Else the refusal's number, 1 to 10: answer[0] is its place, answer[1] is 0, and no word is
 * changed. words_len is the number of words, and may be 0. */
uint32_t offer_findings(const uint8_t *doc, size_t doc_len, uint32_t *words, size_t words_len, uint64_t answer[2]);

/* The message of one finding, in the words of validator.rs: number 0 is that of the first finding that offer_findings writes.
 * OFFER_ACCEPTED where it was written from the front of the text: answer[0] is its length, answer[1] is 0, and the bytes past it
 * keep their contents; no byte 0 is put after it. Else the refusal's number, 1 to 9, 11 or 12: answer[0] is its place, answer[1]
 * is 0, and no byte is changed. text_len may be 0. */
uint32_t offer_message(const uint8_t *doc, size_t doc_len, uint64_t number, uint8_t *text, size_t text_len, uint64_t answer[2]);

#ifdef __cplusplus
}
#endif

#endif
