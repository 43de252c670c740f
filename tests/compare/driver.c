/*
 * The library's end of the comparison. Reads cases from standard input, calls the exported function and writes the answer and all that was lent.
 *
 * A case is the profile and whether the message, or the first one, is archived, two numbers of 64 bits, and eight numbers of 32 bits, low byte first: 1 for
 * a verdict or 2 for a regrouping, how many bytes follow, and three times the place and length of a part in them (message, table, nothing; or first, second,
 * list; place UINT32_MAX is a null pointer). Then the bytes.
 * An answer is the six numbers of 64 bits of the struct, in its order, and the bytes as they are after the call.
 */
#include <glowenzo.h>
#include <stdio.h>
#include <stdlib.h>

struct part {
    uint32_t place;
    uint32_t length;
};

struct frame {
    uint64_t profile;
    uint64_t archived;
    uint32_t kind;
    uint32_t length;
    struct part parts[3];
};

static uint8_t *bytes;
static size_t room;

static uint8_t *pointer(struct part part)
{
    return part.place == UINT32_MAX ? NULL : bytes + part.place;
}

static int make_room(size_t length)
{
    if (length <= room)
        return 1;
    uint8_t *larger = realloc(bytes, length);
    if (larger == NULL)
        return 0;
    bytes = larger;
    room = length;
    return 1;
}

static int answer_verdict(const struct frame *frame)
{
    const struct part *parts = frame->parts;
    glowenzo_verdict_t v =
        glowenzo_verdict(frame->profile, frame->archived, pointer(parts[0]), parts[0].length, pointer(parts[1]), parts[1].length);
    uint64_t numbers[6] = {v.number, v.element, v.offset, v.blocks, v.payments, v.cents};
    return fwrite(numbers, sizeof numbers, 1, stdout) == 1;
}

static int answer_regroup(const struct frame *frame)
{
    const struct part *parts = frame->parts;
    glowenzo_regroup_t r = glowenzo_regroup(frame->profile, frame->archived, pointer(parts[0]), parts[0].length, pointer(parts[1]), parts[1].length,
                                            pointer(parts[2]), parts[2].length);
    uint64_t numbers[6] = {r.whose, r.number, r.element, r.offset, r.k, r.field};
    return fwrite(numbers, sizeof numbers, 1, stdout) == 1;
}

int main(void)
{
    struct frame frame;
    while (fread(&frame, sizeof frame, 1, stdin) == 1) {
        if (!make_room(frame.length) || fread(bytes, 1, frame.length, stdin) != frame.length)
            return 1;
        if (!(frame.kind == 1 ? answer_verdict(&frame) : answer_regroup(&frame)))
            return 1;
        if (fwrite(bytes, 1, frame.length, stdout) != frame.length || fflush(stdout) != 0)
            return 1;
    }
    free(bytes);
    return ferror(stdin) ? 1 : 0;
}
