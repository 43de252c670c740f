/*
 * Holds the structs of include/glowenzo.h to their layout, and the library to them: each member has the value that only it can have in a known answer. The
 * profile is passed as a number of 64 bits, of which none is lost on the way: each of some numbers gives the answer that only its profile gives. So is the
 * number that says whether a message is archived; were the two exchanged, the answers would be others. The table has its size and each of a payment's numbers its
 * place: all of M1's are compared, and of PAIRS the parts that may be absent, where they are there and where they are not.
 *
 *     layout M1 M3 I1 N1 NI1 PAIRS LIST     the messages of README.md; NI1, which is I1 with row 32 as N1 has it; pairs.xml; and the list 0, 1
 */
#include <glowenzo.h>
#include <stddef.h>
#include <stdio.h>

#define AT(type, member, place) _Static_assert(offsetof(type, member) == (place), #type "." #member)
#define WIDE(type, member) _Static_assert(sizeof(((type *)0)->member) == 8, #type "." #member)

_Static_assert(sizeof(glowenzo_verdict_t) == 48 && _Alignof(glowenzo_verdict_t) == 8, "glowenzo_verdict_t");
AT(glowenzo_verdict_t, number, 0);
AT(glowenzo_verdict_t, element, 8);
AT(glowenzo_verdict_t, offset, 16);
AT(glowenzo_verdict_t, blocks, 24);
AT(glowenzo_verdict_t, payments, 32);
AT(glowenzo_verdict_t, cents, 40);
WIDE(glowenzo_verdict_t, cents);

_Static_assert(sizeof(glowenzo_regroup_t) == 48 && _Alignof(glowenzo_regroup_t) == 8, "glowenzo_regroup_t");
AT(glowenzo_regroup_t, whose, 0);
AT(glowenzo_regroup_t, number, 8);
AT(glowenzo_regroup_t, element, 16);
AT(glowenzo_regroup_t, offset, 24);
AT(glowenzo_regroup_t, k, 32);
AT(glowenzo_regroup_t, field, 40);
WIDE(glowenzo_regroup_t, field);

#define PLACE(name, place) _Static_assert(name == (place), #name)

PLACE(GLOWENZO_TABLE_BYTES, 5120);
PLACE(GLOWENZO_NUMBERS_PER_PAYMENT, 20);
_Static_assert(GLOWENZO_TABLE_BYTES == 4 * GLOWENZO_NUMBERS_PER_PAYMENT * 64, "the least table holds 64 payments");
PLACE(GLOWENZO_BLOCK, 0);
PLACE(GLOWENZO_END_TO_END_ID, 1);
PLACE(GLOWENZO_CREDITOR_IBAN, 3);
PLACE(GLOWENZO_CREDITOR_NAME, 5);
PLACE(GLOWENZO_ULTIMATE_DEBTOR, 7);
PLACE(GLOWENZO_PAYMENT_TYPE, 9);
PLACE(GLOWENZO_DEBTOR_IBAN, 11);
PLACE(GLOWENZO_EUROS, 13);
PLACE(GLOWENZO_CENTS, 14);
PLACE(GLOWENZO_PAYMENT, 15);
PLACE(GLOWENZO_CREDITOR_BIC, 16);
PLACE(GLOWENZO_REMITTANCE, 18);

static const char empty_root[] = "<Document xmlns=\"urn:iso:std:iso:20022:tech:xsd:pain.001.001.09\"></Document>";
static uint8_t m1[4096], m3[4096], i1[4096], n1[4096], ni1[4096], pairs[4096], list[64], table[GLOWENZO_TABLE_BYTES];
static int failed;

/* What stands in the table before it is written. */
#define OLD 0xA5

/* M1's numbers: its first payment's from 0 on, its second's from 20 on. */
static const uint32_t m1_numbers[] = {
    0, 662, 2, 779, 20, 741, 6, 604, 8, 341, 30, 479, 20, 12, 50, 630, 0, 0, 0, 0,
    0, 869, 2, 988, 20, 949, 7, 604, 8, 341, 30, 479, 20, 22, 60, 837, 0, 0, 0, 0,
};

/* The parts that each payment of PAIRS has, or has not, of those that may be absent. */
static const struct {
    const char *ultimate, *bic, *remittance;
} parts[] = {
    {"Study 12", "BBBBLULL", "Travel to visit 3, 4 March"},
    {"Study 12", NULL, "RF18539007547034"},
    {"Study 12", NULL, NULL},
    {NULL, "CCCCDEFF500", NULL},
    {NULL, "DDDDFRPP", "Invoice 7/2026"},
};

static uint64_t contents(const char *path, uint8_t *to, uint64_t room)
{
    FILE *from = fopen(path, "rb");
    if (from == NULL)
        return 0;
    uint64_t length = fread(to, 1, room, from);
    fclose(from);
    return length;
}

static void expect(const char *what, int holds)
{
    if (!holds) {
        printf("%s is not as the header says\n", what);
        failed = 1;
    }
}

static void fill_old(void)
{
    for (uint64_t i = 0; i < sizeof table; i++)
        table[i] = OLD;
}

/* No byte from that one on is written. */
static int is_old_from(uint64_t at)
{
    for (; at < sizeof table; at++)
        if (table[at] != OLD)
            return 0;
    return 1;
}

/* The table's number n and the one after it are start and length of that text in the message, or 0, 0 where there is none. */
static int is_part(const uint8_t *message, uint64_t message_len, uint64_t n, const char *text)
{
    uint64_t start = glowenzo_number(table, n), length = glowenzo_number(table, n + 1);
    if (text == NULL)
        return start == 0 && length == 0;
    if (start > message_len || length > message_len - start)
        return 0;
    for (uint64_t i = 0; i < length; i++)
        if (text[i] == 0 || message[start + i] != (uint8_t)text[i])
            return 0;
    return text[length] == 0;
}

static int is_verdict(glowenzo_verdict_t v, uint64_t number, uint64_t element, uint64_t offset, uint64_t blocks, uint64_t payments, uint64_t cents)
{
    return v.number == number && v.element == element && v.offset == offset && v.blocks == blocks && v.payments == payments && v.cents == cents;
}

static int is_regroup(glowenzo_regroup_t r, uint64_t whose, uint64_t number, uint64_t element, uint64_t offset, uint64_t k, uint64_t field)
{
    return r.whose == whose && r.number == number && r.element == element && r.offset == offset && r.k == k && r.field == field;
}

/* Numbers that name the first profile: every number but 1, and so those too of which a byte or a half is 1. */
static const uint64_t firsts[] = {GLOWENZO_FIRST_PROFILE, 2, 3, 257, 0x100000000, 0x100000001, 0x8000000000000001, 0xFFFFFFFFFFFFFFFF};

/* Numbers that say of a message that it is archived: every number but 0, and so those too of which all bytes but one, or a half, are 0. */
static const uint64_t olds[] = {GLOWENZO_ARCHIVED, 2, 256, 0x100000000, 0x8000000000000000, 0xFFFFFFFFFFFFFFFF};

#define EACH(i, numbers) for (uint64_t i = 0; i < sizeof numbers / sizeof numbers[0]; i++)

/* Where M1 lacks the local instrument, and where I1 has it. */
#define INSTRUMENT 371

/* Where row 32 stands in N1, and in NI1. */
#define OTHER 543
#define INSTANT_OTHER 598

/* Where the first payment stands in N1. */
#define FIRST_PAYMENT 640

static const uint64_t first = GLOWENZO_FIRST_PROFILE, instant = GLOWENZO_INSTANT_PROFILE, new = GLOWENZO_NEW, archived = GLOWENZO_ARCHIVED;
static const uint8_t *const root = (const uint8_t *)empty_root;
static const uint64_t root_len = sizeof empty_root - 1;
static uint64_t m1_len, m3_len, i1_len, n1_len, ni1_len, pairs_len, list_len;

/* Refused messages and tables that are too short; nothing is written. */
static void refused_messages(void)
{
    fill_old();
    expect("a refused message", is_verdict(glowenzo_verdict(first, new, root, root_len, table, sizeof table), 4, 2, 65, 0, 0, 0));
    expect("a table of 5,119 bytes", is_verdict(glowenzo_verdict(first, new, m1, m1_len, table, 5119), 14, 0, 0, 0, 0, 0));
    expect("a table of 4,096 bytes", is_verdict(glowenzo_verdict(first, new, m1, m1_len, table, 4096), 14, 0, 0, 0, 0, 0));
    expect("M1 in the instant profile", is_verdict(glowenzo_verdict(instant, new, m1, m1_len, table, sizeof table), 4, 56, INSTRUMENT, 0, 0, 0));
    expect("a table that is too short in the instant profile",
           is_verdict(glowenzo_verdict(instant, new, i1, i1_len, table, sizeof table - 1), 14, 0, 0, 0, 0, 0));
    EACH(i, firsts)
        expect("I1 in the first profile", is_verdict(glowenzo_verdict(firsts[i], new, i1, i1_len, table, sizeof table), 3, 16, INSTRUMENT, 0, 0, 0));
    EACH(i, firsts)
        expect("N1 as new", is_verdict(glowenzo_verdict(firsts[i], new, n1, n1_len, table, sizeof table), 28, 32, OTHER, 0, 0, 0));
    expect("NI1 as new in the instant profile",
           is_verdict(glowenzo_verdict(instant, new, ni1, ni1_len, table, sizeof table), 28, 32, INSTANT_OTHER, 0, 0, 0));
    EACH(i, olds) {
        expect("N1 as archived in the instant profile",
               is_verdict(glowenzo_verdict(instant, olds[i], n1, n1_len, table, sizeof table), 4, 56, INSTRUMENT, 0, 0, 0));
        expect("NI1 as archived in the first profile",
               is_verdict(glowenzo_verdict(first, olds[i], ni1, ni1_len, table, sizeof table), 3, 16, INSTRUMENT, 0, 0, 0));
    }
    expect("a table that is too short for an archived message",
           is_verdict(glowenzo_verdict(first, archived, n1, n1_len, table, sizeof table - 1), 14, 0, 0, 0, 0, 0));
    expect("an unwritten table", is_old_from(0));
}

/* All numbers of M1, and of pairs.xml the parts that may be absent. */
static void tables(void)
{
    expect("an accepted message, and a table of 5,120 bytes", is_verdict(glowenzo_verdict(first, new, m1, m1_len, table, 5120), 0, 0, 0, 1, 2, 3510));
    EACH(n, m1_numbers)
        expect("a number of M1", glowenzo_number(table, n) == m1_numbers[n]);
    expect("the table behind the last payment", is_old_from(sizeof m1_numbers));
    fill_old();
    expect("pairs.xml", is_verdict(glowenzo_verdict(first, new, pairs, pairs_len, table, sizeof table), 0, 0, 0, 2, 5, 14314));
    EACH(k, parts) {
        uint64_t at = GLOWENZO_NUMBERS_PER_PAYMENT * k;
        expect("an ultimate debtor", is_part(pairs, pairs_len, at + GLOWENZO_ULTIMATE_DEBTOR, parts[k].ultimate));
        expect("a creditor's BIC", is_part(pairs, pairs_len, at + GLOWENZO_CREDITOR_BIC, parts[k].bic));
        expect("a remittance", is_part(pairs, pairs_len, at + GLOWENZO_REMITTANCE, parts[k].remittance));
    }
    expect("the table behind the last payment of pairs.xml", is_old_from(4 * GLOWENZO_NUMBERS_PER_PAYMENT * 5));
}

/* Which numbers name which profile, and which say that a message is archived; parts of length 0. */
static void accepted_messages(void)
{
    EACH(i, firsts)
        expect("M1 in the first profile", is_verdict(glowenzo_verdict(firsts[i], new, m1, m1_len, table, sizeof table), 0, 0, 0, 1, 2, 3510));
    expect("I1 in the instant profile", is_verdict(glowenzo_verdict(instant, new, i1, i1_len, table, sizeof table), 0, 0, 0, 1, 2, 3510));
    expect("a written table in the instant profile",
           glowenzo_number(table, GLOWENZO_PAYMENT_TYPE) == 341 && glowenzo_number(table, GLOWENZO_PAYMENT_TYPE + 1) == 66);
    EACH(i, olds) {
        EACH(j, firsts)
            expect("N1 as archived", is_verdict(glowenzo_verdict(firsts[j], olds[i], n1, n1_len, table, sizeof table), 0, 0, 0, 1, 2, 3510));
        expect("a written table of an archived message", glowenzo_number(table, GLOWENZO_PAYMENT) == FIRST_PAYMENT);
        expect("NI1 as archived in the instant profile",
               is_verdict(glowenzo_verdict(instant, olds[i], ni1, ni1_len, table, sizeof table), 0, 0, 0, 1, 2, 3510));
    }
    expect("M1 as archived", is_verdict(glowenzo_verdict(first, archived, m1, m1_len, table, sizeof table), 0, 0, 0, 1, 2, 3510));
    expect("a null message", is_verdict(glowenzo_verdict(first, new, NULL, 0, table, sizeof table), 2, 0, 0, 0, 0, 0));
    expect("a null table", is_verdict(glowenzo_verdict(first, new, m1, m1_len, NULL, 0), 14, 0, 0, 0, 0, 0));
}

/* Regroupings. */
static void regroupings(void)
{
    expect("a field that differs", is_regroup(glowenzo_regroup(first, new, m1, m1_len, m3, m3_len, list, list_len), 0, 20, 0, 0, 1, 8));
    expect("a refused second message", is_regroup(glowenzo_regroup(first, new, m1, m1_len, root, root_len, list, list_len), 2, 4, 2, 65, 0, 0));
    expect("a null list", is_regroup(glowenzo_regroup(first, new, m1, m1_len, m1, m1_len, NULL, 0), 0, 16, 0, 0, 0, 0));
    expect("a null first message", is_regroup(glowenzo_regroup(first, new, NULL, 0, m1, m1_len, list, list_len), 1, 2, 0, 0, 0, 0));
    expect("a message that regroups itself", is_regroup(glowenzo_regroup(first, new, m1, m1_len, m1, m1_len, list, list_len), 0, 0, 0, 0, 0, 0));
    expect("I1 that regroups itself", is_regroup(glowenzo_regroup(instant, new, i1, i1_len, i1, i1_len, list, list_len), 0, 0, 0, 0, 0, 0));
    expect("M1 to I1 in the instant profile", is_regroup(glowenzo_regroup(instant, new, m1, m1_len, i1, i1_len, list, list_len), 1, 4, 56, INSTRUMENT, 0, 0));
    EACH(i, firsts)
        expect("M1 to I1 in the first profile",
               is_regroup(glowenzo_regroup(firsts[i], new, m1, m1_len, i1, i1_len, list, list_len), 2, 3, 16, INSTRUMENT, 0, 0));
    EACH(i, firsts)
        expect("N1 as new to itself", is_regroup(glowenzo_regroup(firsts[i], new, n1, n1_len, n1, n1_len, list, list_len), 1, 28, 32, OTHER, 0, 0));
    expect("NI1 as new to itself", is_regroup(glowenzo_regroup(instant, new, ni1, ni1_len, ni1, ni1_len, list, list_len), 1, 28, 32, INSTANT_OTHER, 0, 0));
    EACH(i, olds) {
        EACH(j, firsts)
            expect("N1 as archived to itself",
                   is_regroup(glowenzo_regroup(firsts[j], olds[i], n1, n1_len, n1, n1_len, list, list_len), 2, 28, 32, OTHER, 0, 0));
        expect("NI1 as archived to itself",
               is_regroup(glowenzo_regroup(instant, olds[i], ni1, ni1_len, ni1, ni1_len, list, list_len), 2, 28, 32, INSTANT_OTHER, 0, 0));
        expect("N1 as archived to M1", is_regroup(glowenzo_regroup(first, olds[i], n1, n1_len, m1, m1_len, list, list_len), 0, 20, 0, 0, 0, 7));
        expect("NI1 as archived to I1", is_regroup(glowenzo_regroup(instant, olds[i], ni1, ni1_len, i1, i1_len, list, list_len), 0, 20, 0, 0, 0, 7));
    }
    expect("M1 as archived to itself", is_regroup(glowenzo_regroup(first, archived, m1, m1_len, m1, m1_len, list, list_len), 0, 0, 0, 0, 0, 0));
}

int main(int argc, char **argv)
{
    if (argc != 8)
        return 2;
    m1_len = contents(argv[1], m1, sizeof m1);
    m3_len = contents(argv[2], m3, sizeof m3);
    i1_len = contents(argv[3], i1, sizeof i1);
    n1_len = contents(argv[4], n1, sizeof n1);
    ni1_len = contents(argv[5], ni1, sizeof ni1);
    pairs_len = contents(argv[6], pairs, sizeof pairs);
    list_len = contents(argv[7], list, sizeof list);
    refused_messages();
    tables();
    accepted_messages();
    regroupings();
    return failed;
}
