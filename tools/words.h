/* The words for what stands in a table and for what the library answers. */
#ifndef WORDS_H
#define WORDS_H

#include <stddef.h>
#include <stdint.h>

/* A number of a table and its name. */
struct word {
    uint8_t number;
    const char *name;
};

/* A list of words, closed by a name of NULL. */
extern const struct word behaviours[]; /* RFC 8986, RFC 9433 */
extern const struct word directions[];
extern const struct word session_types[];  /* TS 24.501 */
extern const struct word zero_checksums[]; /* of UDP over IPv6, as they arrive */
extern const struct word messages[];       /* of GTP-U, TS 29.281 */
extern const struct word icmp_types[];     /* of ICMPv6, RFC 4443 and RFC 4861 */

/* The word with a number, or with a name; NULL where there is none. */
const struct word *word_numbered(const struct word *words, unsigned int number);
const struct word *word_named(const struct word *words, const char *name);

/* The name of a number; NULL where it has none. */
const char *word_name(const struct word *words, unsigned int number);

/* What an answer means, and what to do about it on site. */
struct answer_words {
    const char *given_when;
    const char *icmp; /* NULL: none */
    const char *likely;
    const char *next;
};

/* NULL for a number that is no answer. */
const struct answer_words *answer_words(unsigned long number);

/* What is said in place of the name of answer 0 where the packet was an Echo Request. */
extern const char echo_answered_words[];

struct fault_words {
    const char *broken; /* what is wrong with the record */
    const char *next;
    const char *field; /* the key of a description that says it, where one may; else NULL */
};

/* NULL for what is no condition of the record. */
const struct fault_words *fault_words(unsigned int record, unsigned int condition);

/* What it means where a condition of tables that fit fails. The condition's name is kawsarpa_mismatch_name's. */
struct mismatch_words {
    const char *means;
    const char *next;
};

/* NULL for what is no condition. */
const struct mismatch_words *mismatch_words(unsigned int condition);

/* "header", "entry", "rule" or "policy". */
const char *record_name(unsigned int record);

#endif
