/* Makes many calls of the library: reads them from standard input and writes what is there after each.
 *
 * A question has, every number with its low byte first:
 *   - the call, how many scalars it has and how many blocks, 4 bytes each;
 *   - each scalar, 8 bytes, negative ones in two's complement;
 *   - each block's length, 4 bytes;
 *   - each block, with GUARD bytes before it and GUARD bytes after it.
 * A block is what a pointer of the call points to; an empty one is passed as a null pointer.
 *
 * The reply is the returned number, 4 bytes, and all blocks with their guards, as they are after the
 * call: agreement.py, which compares, sees every byte that must not be touched. */
#include <stdio.h>
#include <stdlib.h>

#include "pumdalin.h"

enum { GUARD = 16, MOST_SCALARS = 8, MOST_BLOCKS = 3 };

struct block {
    uint8_t *bytes;
    size_t length;
};

static uint32_t figures(const uint64_t *scalars, const struct block *blocks)
{
    return pumdalin_figures(blocks[0].bytes, blocks[0].length,
                            (int16_t)scalars[0], (int16_t)scalars[1],
                            (int16_t)scalars[2], (int16_t)scalars[3],
                            (uint32_t)scalars[4],
                            blocks[1].bytes, blocks[1].length);
}

static uint32_t text(const uint64_t *scalars, const struct block *blocks)
{
    (void)scalars;
    return pumdalin_text(blocks[0].bytes, blocks[0].length,
                         blocks[1].bytes, blocks[1].length,
                         blocks[2].bytes, blocks[2].length);
}

static uint32_t with_skips(const uint64_t *scalars, const struct block *blocks)
{
    (void)scalars;
    return pumdalin_with_skips(blocks[0].bytes, blocks[0].length,
                               blocks[1].bytes, blocks[1].length,
                               blocks[2].bytes, blocks[2].length);
}

static uint32_t without_skips(const uint64_t *scalars, const struct block *blocks)
{
    (void)scalars;
    return pumdalin_without_skips(blocks[0].bytes, blocks[0].length,
                                  blocks[1].bytes, blocks[1].length,
                                  blocks[2].bytes, blocks[2].length);
}

static uint32_t range(const uint64_t *scalars, const struct block *blocks)
{
    return pumdalin_range(blocks[0].bytes, blocks[0].length,
                          (int16_t)scalars[0], (int16_t)scalars[1],
                          (int16_t)scalars[2], (int16_t)scalars[3],
                          (uint32_t)scalars[4],
                          (uint32_t)scalars[5], (int16_t)scalars[6], (int16_t)scalars[7],
                          blocks[1].bytes, blocks[1].length);
}

/* The calls by their numbers; there is none with the number 4. */
static const struct call {
    uint32_t (*make)(const uint64_t *scalars, const struct block *blocks);
    size_t scalars, blocks;
} calls[] = {
    {figures, 5, 2},
    {text, 0, 3},
    {with_skips, 0, 3},
    {without_skips, 0, 3},
    {NULL, 0, 0},
    {range, 8, 2},
};

static void fail(const char *what)
{
    fprintf(stderr, "answers: %s\n", what);
    exit(2);
}

static void read_bytes(uint8_t *bytes, size_t length)
{
    if (fread(bytes, 1, length, stdin) != length)
        fail("a question is cut off");
}

static uint64_t read_number(size_t length)
{
    uint8_t bytes[8];
    uint64_t number = 0;
    read_bytes(bytes, length);
    while (length-- > 0)
        number = number * 256 + bytes[length];
    return number;
}

static const struct call *read_call(void)
{
    uint64_t number = read_number(4), scalars = read_number(4), blocks = read_number(4);
    if (number >= sizeof calls / sizeof calls[0] || calls[number].make == NULL)
        fail("there is no call with this number");
    if (scalars != calls[number].scalars || blocks != calls[number].blocks)
        fail("the call has another number of scalars or blocks");
    return &calls[number];
}

/* The lengths of the blocks; how many bytes they take with their guards. */
static size_t read_lengths(struct block *blocks, size_t count)
{
    size_t length = 0;
    for (size_t i = 0; i < count; i++) {
        blocks[i].length = read_number(4);
        length += GUARD + blocks[i].length + GUARD;
    }
    return length;
}

static void place_blocks(struct block *blocks, size_t count, uint8_t *bytes)
{
    for (size_t i = 0; i < count; i++) {
        blocks[i].bytes = blocks[i].length == 0 ? NULL : bytes + GUARD;
        bytes += GUARD + blocks[i].length + GUARD;
    }
}

/* The reply is written at once: if a later call ends the program or does not return, it is not lost. */
static void write_reply(uint32_t number, const uint8_t *bytes, size_t length)
{
    for (int i = 0; i < 4; i++)
        putchar((int)(number >> (8 * i) & 255));
    if (fwrite(bytes, 1, length, stdout) != length || fflush(stdout) != 0)
        fail("the reply can not be written");
}

static void answer_question(void)
{
    uint64_t scalars[MOST_SCALARS];
    struct block blocks[MOST_BLOCKS];
    const struct call *call = read_call();
    for (size_t i = 0; i < call->scalars; i++)
        scalars[i] = read_number(8);
    size_t length = read_lengths(blocks, call->blocks);
    uint8_t *bytes = malloc(length);
    if (bytes == NULL)
        fail("there is no memory for the blocks");
    read_bytes(bytes, length);
    place_blocks(blocks, call->blocks, bytes);
    write_reply(call->make(scalars, blocks), bytes, length);
    free(bytes);
}

int main(void)
{
    int first;
    while ((first = getchar()) != EOF) {
        ungetc(first, stdin);
        answer_question();
    }
    return 0;
}
