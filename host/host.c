/*
 * A payment host in small: reads a message and shows its payments, or checks a regrouping before it is sent.
 *
 *     host [--instant] [--archived] MESSAGE               prints the verdict, and each payment as the table gives it
 *     host [--instant] [--archived] FIRST SECOND LIST     prints whether the second message regroups the first by that list
 *
 * Messages are read in the first profile, with --instant in the instant one; as new, with --archived as archived, which of a regrouping is said of the first
 * message, the second being always new. The first line says which.
 * Exits with 0 if accepted, 1 if refused, 2 if a file can't be read or the arguments are wrong.
 */
#include <glowenzo.h>
#include <inttypes.h>
#include <stdio.h>
#include <string.h>

/* One byte more than the longest list, which is longer than the longest message: a longer file is still refused for what it is. */
#define ROOM 131078

struct file {
    uint8_t bytes[ROOM];
    uint64_t length;
};

static const char *const reasons[] = {
    [GLOWENZO_TOO_LONG] = "the message is too long",
    [GLOWENZO_FORM] = "not of the written form",
    [GLOWENZO_NOT_ALLOWED_THERE] = "not allowed there",
    [GLOWENZO_MISSING] = "a required element is missing",
    [GLOWENZO_TOO_MANY] = "too many blocks or payments",
    [GLOWENZO_EMPTY_OR_TOO_LONG] = "empty or too long",
    [GLOWENZO_CHARACTER] = "a character that is not in the set",
    [GLOWENZO_VALUE] = "a value that is not allowed",
    [GLOWENZO_IN_PAYMENT_AND_BLOCK] = "in the payment and in its block",
    [GLOWENZO_IN_NEITHER] = "neither in the payment nor in its block",
    [GLOWENZO_BLOCK_ID_REPEATED] = "a block id of an earlier block",
    [GLOWENZO_COUNT_DIFFERS] = "a count that differs from the truth",
    [GLOWENZO_SUM_DIFFERS] = "a sum that differs from the truth",
    [GLOWENZO_TABLE_TOO_SHORT] = "the table is too short",
    [GLOWENZO_PAYMENTS_DIFFER] = "the numbers of payments differ",
    [GLOWENZO_LIST_FORM] = "the list is not of its form",
    [GLOWENZO_LIST_COUNT] = "the list has another count",
    [GLOWENZO_ORDINAL_TOO_LARGE] = "an ordinal is too large",
    [GLOWENZO_NAMED_BEFORE] = "a payment was named before",
    [GLOWENZO_FIELDS_DIFFER] = "a field differs",
    [GLOWENZO_WITHDRAWN] = "a row that is withdrawn, in a new message",
};

static const char *reason(uint64_t number)
{
    return number < sizeof reasons / sizeof reasons[0] && reasons[number] ? reasons[number] : "an unknown reason";
}

static int read_file(const char *path, struct file *file)
{
    FILE *from = fopen(path, "rb");
    if (from == NULL) {
        fprintf(stderr, "%s can't be opened\n", path);
        return 0;
    }
    file->length = fread(file->bytes, 1, ROOM, from);
    int failed = ferror(from);
    fclose(from);
    if (failed)
        fprintf(stderr, "%s can't be read\n", path);
    return !failed;
}

/* How it is read: the profile, and whether the message that is named so is archived. */
static void show_reading(uint64_t profile, const char *message, uint64_t archived)
{
    printf("profile: %s, %s: %s\n", profile == GLOWENZO_INSTANT_PROFILE ? "instant" : "first", message, archived == GLOWENZO_NEW ? "new" : "archived");
}

static void refused(uint64_t number, uint64_t element, uint64_t offset)
{
    printf("refused %" PRIu64 ": %s, element %" PRIu64 ", offset %" PRIu64 "\n", number, reason(number), element, offset);
}

/* The part of the message that a payment's number and the one after it name. */
static void show_part(const char *title, const struct file *message, const uint8_t *numbers, uint64_t at)
{
    uint32_t start = glowenzo_number(numbers, at), length = glowenzo_number(numbers, at + 1);
    printf("  %s: ", title);
    fwrite(message->bytes + start, 1, length, stdout);
    putchar('\n');
}

/* One that may be absent: nothing is shown where it is. */
static void show_part_if_there(const char *title, const struct file *message, const uint8_t *numbers, uint64_t at)
{
    if (glowenzo_number(numbers, at) != 0)
        show_part(title, message, numbers, at);
}

static void show_payment(const struct file *message, const uint8_t *numbers, uint64_t k)
{
    printf("payment %" PRIu64 " of block %u at %u: %u.%02u EUR\n", k, glowenzo_number(numbers, GLOWENZO_BLOCK), glowenzo_number(numbers, GLOWENZO_PAYMENT),
           glowenzo_number(numbers, GLOWENZO_EUROS), glowenzo_number(numbers, GLOWENZO_CENTS));
    show_part("id", message, numbers, GLOWENZO_END_TO_END_ID);
    show_part("from", message, numbers, GLOWENZO_DEBTOR_IBAN);
    show_part("to", message, numbers, GLOWENZO_CREDITOR_IBAN);
    show_part_if_there("bic", message, numbers, GLOWENZO_CREDITOR_BIC);
    show_part("name", message, numbers, GLOWENZO_CREDITOR_NAME);
    show_part_if_there("for", message, numbers, GLOWENZO_ULTIMATE_DEBTOR);
    show_part("type", message, numbers, GLOWENZO_PAYMENT_TYPE);
    show_part_if_there("remittance", message, numbers, GLOWENZO_REMITTANCE);
}

static int verdict(uint64_t profile, uint64_t archived, const char *path)
{
    static struct file message;
    static uint8_t table[GLOWENZO_TABLE_BYTES];
    if (!read_file(path, &message))
        return 2;
    show_reading(profile, "message", archived);
    glowenzo_verdict_t v = glowenzo_verdict(profile, archived, message.bytes, message.length, table, sizeof table);
    if (v.number != GLOWENZO_ACCEPTED) {
        refused(v.number, v.element, v.offset);
        return 1;
    }
    printf("accepted: blocks %" PRIu64 ", payments %" PRIu64 ", %" PRIu64 ".%02" PRIu64 " EUR\n", v.blocks, v.payments, v.cents / 100, v.cents % 100);
    for (uint64_t k = 0; k < v.payments; k++)
        show_payment(&message, table + 4 * GLOWENZO_NUMBERS_PER_PAYMENT * k, k);
    return 0;
}

static int regroup(uint64_t profile, uint64_t archived, const char *first_path, const char *second_path, const char *list_path)
{
    static struct file first, second, list;
    if (!read_file(first_path, &first) || !read_file(second_path, &second) || !read_file(list_path, &list))
        return 2;
    show_reading(profile, "first message", archived);
    glowenzo_regroup_t r = glowenzo_regroup(profile, archived, first.bytes, first.length, second.bytes, second.length, list.bytes, list.length);
    if (r.number == GLOWENZO_ACCEPTED) {
        puts("accepted: the second message regroups the first");
        return 0;
    }
    if (r.whose != 0) {
        printf("message %" PRIu64 " ", r.whose);
        refused(r.number, r.element, r.offset);
        return 1;
    }
    printf("refused %" PRIu64 ": %s, k %" PRIu64 ", field %" PRIu64 "\n", r.number, reason(r.number), r.k, r.field);
    return 1;
}

int main(int argc, char **argv)
{
    uint64_t profile = GLOWENZO_FIRST_PROFILE, archived = GLOWENZO_NEW;
    for (; argc > 1; argc--, argv++) {
        if (strcmp(argv[1], "--instant") == 0)
            profile = GLOWENZO_INSTANT_PROFILE;
        else if (strcmp(argv[1], "--archived") == 0)
            archived = GLOWENZO_ARCHIVED;
        else
            break;
    }
    if (argc == 2)
        return verdict(profile, archived, argv[1]);
    if (argc == 4)
        return regroup(profile, archived, argv[1], argv[2], argv[3]);
    fprintf(stderr, "host [--instant] [--archived] MESSAGE\nhost [--instant] [--archived] FIRST SECOND LIST\n");
    return 2;
}
