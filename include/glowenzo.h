/*
 * Glowenzo for C: the verdict on one pain.001.001.09 message, new or archived, and whether one message regroups another, in the first profile or in the
 * instant one.
 *
 * Link with the archive that `rt lib` in crates/host writes (crates/host/out/libhost.a, x86-64 Linux).
 *
 * Ownership. Everything is lent for the time of the call: the library keeps no pointer, allocates nothing, holds no state between calls and writes
 * nowhere but into the table. Calls may run at the same time on different threads, provided that no other thread writes what is lent or uses the table.
 * The table must not overlap the message. Lent parts need no alignment. A part of length 0 is empty whatever its pointer is, also a null pointer; a null
 * pointer with any other length is the caller's error.
 *
 * Stack. A verdict takes about 75 KB of stack and a regrouping about 126 KB, whatever the message. The archive calls the C library's memcpy and memset, and nothing
 * else.
 */
#ifndef GLOWENZO_H
#define GLOWENZO_H

#include <stdint.h>

#ifdef __cplusplus
extern "C" {
#endif

/*
 * The profile that a message is read in (docs/RULES.md, 3): which rows there are. The caller names it by its number in each call; 1 is the instant one, any
 * other number the first.
 */
enum {
    GLOWENZO_FIRST_PROFILE = 0,
    GLOWENZO_INSTANT_PROFILE = 1         /* with a local instrument (rows 56, 57), and a date or a date and time (row 58) */
};

/*
 * Whether a message is archived, in either profile (docs/RULES.md, 3): row 32, under the debtor's agent, is withdrawn, and an archived message may still hold
 * it. The caller says so by a number in each call; 0 is a new message, any other number an archived one.
 */
enum {
    GLOWENZO_NEW = 0,
    GLOWENZO_ARCHIVED = 1
};

/* Why a message is refused: its number (docs/RULES.md, 6). `element` is a row of section 3 there, 0 where none is named; `offset` is a byte of the message. */
enum {
    GLOWENZO_ACCEPTED = 0,
    GLOWENZO_TOO_LONG = 1,               /* over 32,768 bytes; offset 32768 */
    GLOWENZO_FORM = 2,                   /* not of the written form; offset of the first impossible byte, or the length where it ends too early */
    GLOWENZO_NOT_ALLOWED_THERE = 3,      /* child no longer or never allowed there, child in a leaf, or text in a group; element: the parent, leaf or group;
                                            offset: the child's < or the first such byte */
    GLOWENZO_MISSING = 4,                /* a required element is missing; element: the first row missing; offset: the < of the child or end tag found */
    GLOWENZO_TOO_MANY = 5,               /* 17th block (element 10) or 65th payment (element 37); offset: its < */
    GLOWENZO_EMPTY_OR_TOO_LONG = 6,      /* leaf empty or too long; offset: its < */
    GLOWENZO_CHARACTER = 7,              /* character not in the set; offset: that byte */
    GLOWENZO_VALUE = 8,                  /* value not allowed; offset: the leaf's < */
    GLOWENZO_IN_PAYMENT_AND_BLOCK = 9,   /* row 16, 36 or 34 in the payment and in its block; offset: its < in the payment */
    GLOWENZO_IN_NEITHER = 10,            /* row 16 in neither; offset: the payment's < */
    GLOWENZO_BLOCK_ID_REPEATED = 11,     /* block id of an earlier block; offset: its < */
    GLOWENZO_COUNT_DIFFERS = 12,         /* a count differs from the truth; element 6 or 14; offset: its < */
    GLOWENZO_SUM_DIFFERS = 13,           /* a sum differs from the truth; element 7 or 15; offset: its < */
    GLOWENZO_TABLE_TOO_SHORT = 14,       /* table under 1,280 numbers (5,120 bytes) */
    GLOWENZO_WITHDRAWN = 28              /* row 32 in a new message; offset: its < */
};

/* Why a regrouping is refused, beside a message's own refusal (docs/RULES.md, 9). The seventeen fields are its section 8. */
enum {
    GLOWENZO_PAYMENTS_DIFFER = 15,       /* the numbers of payments differ */
    GLOWENZO_LIST_FORM = 16,             /* the list is not of its form */
    GLOWENZO_LIST_COUNT = 17,            /* the list's count is not the number of payments */
    GLOWENZO_ORDINAL_TOO_LARGE = 18,     /* at k: ordinal too large */
    GLOWENZO_NAMED_BEFORE = 19,          /* at k: named before */
    GLOWENZO_FIELDS_DIFFER = 20          /* at k: fields differ; field: the lowest of the seventeen that does */
};

/* Accepted: number, element and offset are 0. Refused: the counts are 0. */
typedef struct {
    uint64_t number;
    uint64_t element;
    uint64_t offset;
    uint64_t blocks;
    uint64_t payments;
    uint64_t cents;
} glowenzo_verdict_t;

/* whose 1 or 2: that message is refused with number, element and offset. whose 0: number, k and field. Accepted: all are 0. */
typedef struct {
    uint64_t whose;
    uint64_t number;
    uint64_t element;
    uint64_t offset;
    uint64_t k;
    uint64_t field;
} glowenzo_regroup_t;

/*
 * The table (docs/RULES.md, 7 and 10): numbers of four bytes each, high byte first. One to three bytes left at its end make no number and stay as they
 * are. It must have room for 1,280 numbers (5,120 bytes) or more. It is written only if the message is accepted: then payment k, from 0, has the numbers
 * 20k to 20k + 19, and every other byte stays as it is. A start and a length name a part of the message. Three of these parts may be absent, as is said of
 * them below; start and length are then 0, 0, and a start is 0 only then.
 */
enum {
    GLOWENZO_TABLE_BYTES = 5120,         /* the least table that is long enough, for every message */
    GLOWENZO_NUMBERS_PER_PAYMENT = 20,

    GLOWENZO_BLOCK = 0,                  /* ordinal of the payment's block, from 0 */
    GLOWENZO_END_TO_END_ID = 1,          /* start; the length is the number after it, here and below but for 13 to 15 */
    GLOWENZO_CREDITOR_IBAN = 3,
    GLOWENZO_CREDITOR_NAME = 5,
    GLOWENZO_ULTIMATE_DEBTOR = 7,        /* name, the payment's or its block's; 0, 0 where there is none */
    GLOWENZO_PAYMENT_TYPE = 9,           /* all that stands inside row 16 (PmtTpInf), the payment's or its block's; in the instant profile
                                            its local instrument too */
    GLOWENZO_DEBTOR_IBAN = 11,           /* its block's */
    GLOWENZO_EUROS = 13,                 /* whole euros of the amount */
    GLOWENZO_CENTS = 14,                 /* and cents, 0 to 99 */
    GLOWENZO_PAYMENT = 15,               /* offset of the payment's < */
    GLOWENZO_CREDITOR_BIC = 16,          /* 0, 0 where there is none */
    GLOWENZO_REMITTANCE = 18             /* the text of Ustrd (row 49) or of Ref (row 55); 0, 0 where there is none */
};

/* The n-th number of a table. */
static inline uint32_t glowenzo_number(const uint8_t *table, uint64_t n)
{
    const uint8_t *at = table + 4 * n;
    return (uint32_t)at[0] << 24 | (uint32_t)at[1] << 16 | (uint32_t)at[2] << 8 | (uint32_t)at[3];
}

/* The verdict on a message, read in that profile, as new or as archived. table_len counts bytes. */
glowenzo_verdict_t glowenzo_verdict(uint64_t profile, uint64_t archived, const uint8_t *message, uint64_t message_len, uint8_t *table, uint64_t table_len);

/*
 * Whether the second message is the first with its payments regrouped as the list says, both read in that one profile; `archived` is said of the first, and
 * the second is always read as new. The list: the bytes RGL, 16-bit version 1, 16-bit count, then that many 16-bit ordinals, high byte first; ordinal k names
 * the payment of the first message, from 0, that stands k-th in the second. Nothing is written.
 */
glowenzo_regroup_t glowenzo_regroup(uint64_t profile, uint64_t archived, const uint8_t *first, uint64_t first_len, const uint8_t *second, uint64_t second_len,
                                    const uint8_t *list, uint64_t list_len);

#ifdef __cplusplus
}
#endif

#endif
