/*
 * The benchmark. Times verdict and regrouping of the library, of the independent implementation, and the parse of the same bytes by libxml2's SAX parser
 * and by expat; then the stack that the library uses. See bench/run.
 *
 *     bench M1 FOLDER            FOLDER as bench/messages.rs fills it
 *
 * A time is processor time, the least of several rounds; each round runs all of them in turn. Each bar is printed behind its figure, as held or MISSED.
 * Exits with 1 if one is missed or the two implementations differ.
 */
#define _GNU_SOURCE
#include <expat.h>
#include <glowenzo.h>
#include <libxml/parser.h>
#include <pthread.h>
#include <stdio.h>
#include <stdlib.h>
#include <string.h>
#include <sys/mman.h>
#include <time.h>

#define ROUNDS 40
#define ROUND_NS 5e6
#define STACK_BYTES (8u << 20)
#define PAINT 0xA5

/* The bars: verdict to libxml2's SAX parse, on the largest message and on every other; a regrouping in verdicts; the stack of a verdict in bytes. */
#define MOST_OF_LARGEST 0.70
#define MOST_OF_OTHERS 0.90
#define MOST_VERDICTS 2.40
#define MOST_STACK (80 * 1024)

/* The profiles, as the functions name them. */
#define FIRST 0
#define INSTANT 1

/* No message is archived. */
#define NEW 0

glowenzo_verdict_t independent_verdict(uint64_t profile, uint64_t archived, const uint8_t *message, uint64_t message_len, uint8_t *table,
                                       uint64_t table_len);
glowenzo_regroup_t independent_regroup(uint64_t profile, uint64_t archived, const uint8_t *first, uint64_t first_len, const uint8_t *second,
                                       uint64_t second_len, const uint8_t *list, uint64_t list_len);

struct input {
    const char *name;
    uint8_t bytes[32769];
    uint64_t length;
};

/* One call to time: the profile and up to three inputs. */
struct call {
    uint64_t profile;
    const struct input *first, *second, *list;
};

typedef void contender(const struct call *call);

static uint8_t table[GLOWENZO_TABLE_BYTES];
static volatile uint64_t sink;
static unsigned long events;

static void our_verdict(const struct call *call)
{
    glowenzo_verdict_t v = glowenzo_verdict(call->profile, NEW, call->first->bytes, call->first->length, table, sizeof table);
    sink += v.number + v.cents;
}

static void rust_verdict(const struct call *call)
{
    glowenzo_verdict_t v = independent_verdict(call->profile, NEW, call->first->bytes, call->first->length, table, sizeof table);
    sink += v.number + v.cents;
}

static void our_regroup(const struct call *call)
{
    glowenzo_regroup_t r = glowenzo_regroup(call->profile, NEW, call->first->bytes, call->first->length, call->second->bytes, call->second->length,
                                            call->list->bytes, call->list->length);
    sink += r.number + r.k;
}

static void rust_regroup(const struct call *call)
{
    glowenzo_regroup_t r = independent_regroup(call->profile, NEW, call->first->bytes, call->first->length, call->second->bytes, call->second->length,
                                               call->list->bytes, call->list->length);
    sink += r.number + r.k;
}

/* libxml2, with handlers that count what they are told. */
static void xml_start(void *context, const xmlChar *name, const xmlChar *prefix, const xmlChar *uri, int namespaces, const xmlChar **names, int attributes,
                      int defaulted, const xmlChar **values)
{
    (void)context, (void)name, (void)prefix, (void)uri, (void)namespaces, (void)names, (void)attributes, (void)defaulted, (void)values;
    events++;
}

static void xml_end(void *context, const xmlChar *name, const xmlChar *prefix, const xmlChar *uri)
{
    (void)context, (void)name, (void)prefix, (void)uri;
    events++;
}

static void xml_text(void *context, const xmlChar *text, int length)
{
    (void)context, (void)text;
    events += (unsigned long)length;
}

static void libxml2(const struct call *call)
{
    xmlSAXHandler handler;
    memset(&handler, 0, sizeof handler);
    handler.initialized = XML_SAX2_MAGIC;
    handler.startElementNs = xml_start;
    handler.endElementNs = xml_end;
    handler.characters = xml_text;
    handler.ignorableWhitespace = xml_text;
    sink += (uint64_t)xmlSAXUserParseMemory(&handler, NULL, (const char *)call->first->bytes, (int)call->first->length);
}

/* expat, in the same way. */
static void XMLCALL expat_start(void *context, const XML_Char *name, const XML_Char **attributes)
{
    (void)context, (void)name, (void)attributes;
    events++;
}

static void XMLCALL expat_end(void *context, const XML_Char *name)
{
    (void)context, (void)name;
    events++;
}

static void XMLCALL expat_text(void *context, const XML_Char *text, int length)
{
    (void)context, (void)text;
    events += (unsigned long)length;
}

static void expat(const struct call *call)
{
    XML_Parser parser = XML_ParserCreate(NULL);
    XML_SetElementHandler(parser, expat_start, expat_end);
    XML_SetCharacterDataHandler(parser, expat_text);
    sink += (uint64_t)XML_Parse(parser, (const char *)call->first->bytes, (int)call->first->length, 1);
    XML_ParserFree(parser);
}

static double now(void)
{
    struct timespec t;
    clock_gettime(CLOCK_PROCESS_CPUTIME_ID, &t);
    return (double)t.tv_sec * 1e9 + (double)t.tv_nsec;
}

/* Nanoseconds of one call, in a round of as many as fill its time. */
static double one_round(contender *run, const struct call *call)
{
    uint64_t calls = 0;
    double start = now(), end;
    do {
        for (int i = 0; i < 8; i++)
            run(call);
        calls += 8;
        end = now();
    } while (end - start < ROUND_NS);
    return (end - start) / (double)calls;
}

static void measure(contender *const *runs, double *ns, int count, const struct call *call)
{
    for (int i = 0; i < count; i++)
        ns[i] = 1e18;
    for (int round = 0; round < ROUNDS; round++)
        for (int i = 0; i < count; i++) {
            double t = one_round(runs[i], call);
            if (t < ns[i])
                ns[i] = t;
        }
}

/* Stack: the call on a painted stack of its own. */
struct task {
    contender *run;
    const struct call *call;
};

static void *perform(void *argument)
{
    const struct task *task = argument;
    task->run(task->call);
    return NULL;
}

static void nothing(const struct call *call)
{
    (void)call;
}

static size_t stack_touched(contender *run, const struct call *call)
{
    uint8_t *stack = mmap(NULL, STACK_BYTES, PROT_READ | PROT_WRITE, MAP_PRIVATE | MAP_ANONYMOUS, -1, 0);
    if (stack == MAP_FAILED)
        exit(2);
    memset(stack, PAINT, STACK_BYTES);
    pthread_attr_t attributes;
    pthread_t thread;
    struct task task = {run, call};
    pthread_attr_init(&attributes);
    pthread_attr_setstack(&attributes, stack, STACK_BYTES);
    if (pthread_create(&thread, &attributes, perform, &task) != 0)
        exit(2);
    pthread_join(thread, NULL);
    size_t low = 0;
    while (low < STACK_BYTES && stack[low] == PAINT)
        low++;
    munmap(stack, STACK_BYTES);
    return STACK_BYTES - low;
}

static const struct input *input(const char *folder, const char *name)
{
    char path[4096];
    struct input *input = malloc(sizeof *input);
    snprintf(path, sizeof path, "%s%s%s", folder, *folder ? "/" : "", name);
    FILE *file = input ? fopen(path, "rb") : NULL;
    if (file == NULL) {
        fprintf(stderr, "%s can't be read\n", path);
        exit(2);
    }
    input->length = fread(input->bytes, 1, sizeof input->bytes, file);
    if (ferror(file))
        exit(2);
    fclose(file);
    const char *slash = strrchr(name, '/');
    input->name = slash ? slash + 1 : name;
    return input;
}

/* Whether a bar is missed or an answer is wrong. */
static int missed;

/* What is said of a bar: whether the figure is at most that. */
static const char *bar(double figure, double most)
{
    if (figure <= most)
        return "held";
    missed = 1;
    return "MISSED";
}

static void same(const char *what, int holds)
{
    if (!holds) {
        printf("  DIFFERENT: glowenzo and the independent implementation on %s\n", what);
        missed = 1;
    }
}

static void verdict_line(uint64_t profile, const struct input *message, double most)
{
    static contender *const runs[] = {our_verdict, rust_verdict, libxml2, expat};
    struct call call = {profile, message, NULL, NULL};
    double ns[4];
    measure(runs, ns, 4, &call);
    glowenzo_verdict_t v = glowenzo_verdict(profile, NEW, message->bytes, message->length, table, sizeof table);
    glowenzo_verdict_t w = independent_verdict(profile, NEW, message->bytes, message->length, table, sizeof table);
    printf("%-20s %6lu %4lu %9.1f %9.1f %9.1f %9.1f %9.2f %9.2f %9.2f %9.2f %4.2f %s\n", message->name, (unsigned long)message->length,
           (unsigned long)v.number, ns[0] / 1e3, ns[1] / 1e3, ns[2] / 1e3, ns[3] / 1e3, ns[0] / (double)message->length, ns[0] / ns[1], ns[0] / ns[3],
           ns[0] / ns[2], most, bar(ns[0] / ns[2], most));
    same(message->name, memcmp(&v, &w, sizeof v) == 0);
    if (v.number == GLOWENZO_TABLE_TOO_SHORT) {
        puts("  WRONG: the table is too short, and nothing was read");
        missed = 1;
    }
}

static void regroup_line(const char *name, const struct input *first, const struct input *second, const struct input *list)
{
    static contender *const runs[] = {our_regroup, rust_regroup};
    static contender *const one[] = {our_verdict};
    struct call call = {FIRST, first, second, list}, other = {FIRST, second, NULL, NULL};
    double ns[2], verdict_first, verdict_second;
    measure(runs, ns, 2, &call);
    measure(one, &verdict_first, 1, &call);
    measure(one, &verdict_second, 1, &other);
    double verdict = (verdict_first + verdict_second) / 2;
    glowenzo_regroup_t r = glowenzo_regroup(FIRST, NEW, first->bytes, first->length, second->bytes, second->length, list->bytes, list->length);
    glowenzo_regroup_t s = independent_regroup(FIRST, NEW, first->bytes, first->length, second->bytes, second->length, list->bytes, list->length);
    printf("%-34s %4lu %9.1f %9.1f %9.1f %9.2f %9.2f %4.2f %s\n", name, (unsigned long)r.number, ns[0] / 1e3, ns[1] / 1e3, verdict / 1e3, ns[0] / ns[1],
           ns[0] / verdict, MOST_VERDICTS, bar(ns[0] / verdict, MOST_VERDICTS));
    same(name, memcmp(&r, &s, sizeof r) == 0);
}

static void stack_line(const struct input *message, size_t base)
{
    struct call call = {FIRST, message, NULL, NULL};
    size_t bytes = stack_touched(our_verdict, &call) - base;
    printf("verdict on %-23s %9zu %9d %s\n", message->name, bytes, MOST_STACK, bar((double)bytes, MOST_STACK));
}

int main(int argc, char **argv)
{
    if (argc != 3) {
        fprintf(stderr, "bench M1 FOLDER\n");
        return 2;
    }
    static const char *const growing[] = {"1.xml", "2.xml", "4.xml", "8.xml", "16.xml", "32.xml"};
    static const char *const refused[] = {"last-byte.xml", "last-sum.xml", "last-id.xml", "last-character.xml", "siblings.xml", "nested.xml", "spaces.xml"};
    xmlInitParser();
    const struct input *m1 = input("", argv[1]), *largest = input(argv[2], "64.xml"), *moved = input(argv[2], "moved.xml");
    const struct input *changed = input(argv[2], "changed.xml"), *list = input(argv[2], "reversed.rgl");
    struct input identity = {"0, 1", "RGL\0\1\0\2\0\0\0\1", 11};

    printf("verdict; times in microseconds\n%-20s %6s %4s %9s %9s %9s %9s %9s %9s %9s %9s %4s\n", "message", "bytes", "no.", "glowenzo", "rust", "libxml2",
           "expat", "ns a byte", "to rust", "to expat", "to libxml", "bar");
    verdict_line(FIRST, m1, MOST_OF_OTHERS);
    for (size_t i = 0; i < sizeof growing / sizeof growing[0]; i++)
        verdict_line(FIRST, input(argv[2], growing[i]), MOST_OF_OTHERS);
    verdict_line(FIRST, largest, MOST_OF_LARGEST);
    verdict_line(INSTANT, input(argv[2], "64-instant.xml"), MOST_OF_OTHERS);
    for (size_t i = 0; i < sizeof refused / sizeof refused[0]; i++)
        verdict_line(FIRST, input(argv[2], refused[i]), MOST_OF_OTHERS);

    printf("\nregrouping; times in microseconds\n%-34s %4s %9s %9s %9s %9s %9s %4s\n", "messages", "no.", "glowenzo", "rust", "1 verdict", "to rust",
           "verdicts", "bar");
    regroup_line("M1 to itself", m1, m1, &identity);
    regroup_line("64.xml to moved.xml", largest, moved, list);
    regroup_line("64.xml to changed.xml (last field)", largest, changed, list);

    struct call one = {FIRST, largest, moved, list};
    size_t base = stack_touched(nothing, &one);
    printf("\nstack\n%-34s %9s %9s\n", "call", "bytes", "bar");
    stack_line(largest, base);
    stack_line(input(argv[2], "nested.xml"), base);
    printf("%-34s %9zu\n", "regrouping of 64.xml to moved.xml", stack_touched(our_regroup, &one) - base);
    puts(missed ? "\nNOT HELD: see above" : "\nall bars are held");
    return missed;
}
