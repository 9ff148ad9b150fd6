/* libFuzzer's target over every function of include/unloop.h, linked with tests/c/levels.c: an input on which the builds differ ends the program.
   An input is one case. Its first byte is the operation, modulo OPERATIONS; behind it stand the operation's slices. Each but the last has its
   length, in elements, in the two bytes before it, the lower first (cut to what is left); the last is all the rest. A number of inputs or a
   place is one such pair of bytes. Words are two bytes each, the lower first. Text is also taken further: where Read gives a block, every
   operation on a block is called on it, so that what is found in texts is found in words too. tests/src/compare/cases.rs reads the
   same cases. */
#include "unloop.h"
#include <stdlib.h>
#include <string.h>

enum operation {
    READ, WRITE, SETTLE, PASS, SHEET, VERDICT, COVER, GROUPS, RENDER, COMPARE, COMPARE_CELLS, BRING, CELLS, RUN, GATHER, SCATTER, LINE,
    OPERATIONS
};

/* What is left of an input. */
typedef struct rest {
    const uint8_t *bytes;
    size_t length;
} rest;

/* A slice of an input, copied so that it is aligned and ends where it ends. */
typedef struct words {
    uint16_t *at;
    size_t length;
} words;

static size_t number(rest *input)
{
    size_t value = 0;

    for (int byte = 0; byte < 2 && input->length > 0; byte++) {
        value += (size_t)input->bytes[0] << (8 * byte);
        input->bytes++, input->length--;
    }
    return value;
}

/* The next slice: so many elements of so many bytes, or all that is left. */
static words taken(rest *input, int is_last, size_t size)
{
    size_t most = is_last ? (size_t)-1 : number(input);
    size_t length = input->length / size < most ? input->length / size : most;
    words slice = {malloc(length * size + 1), length};

    memcpy(slice.at, input->bytes, length * size);
    input->bytes += length * size, input->length -= length * size;
    return slice;
}

/* Enough for every cover of eight inputs; of more inputs a longer one is refused. */
#define COVER_WORDS 13122

static uint16_t block[UNLOOP_BLOCK_WORDS], rendered[UNLOOP_BLOCK_WORDS], order[UNLOOP_GATES], cells[UNLOOP_CELLS_WORDS], entries[COVER_WORDS];
static uint8_t values[UNLOOP_GATES], text[UNLOOP_WRITTEN_BYTES];

/* Calls in a slice that is long enough, then in one that is just long enough and in one that is one short; `length` is its length. */
#define IN_ROOMS(most, needed, call)                                                     \
    do {                                                                                 \
        size_t length = (most);                                                          \
        unloop_reply reply = call;                                                       \
        if (reply.number == 0) {                                                         \
            length = (needed);                                                           \
            call;                                                                        \
            if (length > 0) {                                                            \
                length--;                                                                \
                call;                                                                    \
            }                                                                            \
        }                                                                                \
    } while (0)

/* The gates that words name, where they are a block's. */
static size_t gates_of(words of)
{
    return of.length > 1 && of.at[1] <= UNLOOP_GATES ? of.at[1] : 0;
}

/* An operation on one list of words. */
static void on_words(enum operation operation, words of)
{
    switch (operation) {
    case WRITE: IN_ROOMS(UNLOOP_WRITTEN_BYTES, reply.count, unloop_write(of.at, of.length, text, length)); break;
    case VERDICT: unloop_verdict(of.at, of.length); break;
    case COVER: IN_ROOMS(COVER_WORDS, 2 * reply.count, unloop_cover(of.at, of.length, entries, length)); break;
    case GROUPS: IN_ROOMS(UNLOOP_GATES, gates_of(of), unloop_groups(of.at, of.length, order, length)); break;
    case RENDER: IN_ROOMS(UNLOOP_BLOCK_WORDS, reply.count, unloop_render(of.at, of.length, rendered, length)); break;
    case BRING: IN_ROOMS(UNLOOP_BLOCK_WORDS, reply.count, unloop_bring(of.at, of.length, rendered, length)); break;
    case CELLS: IN_ROOMS(UNLOOP_CELLS_WORDS, reply.count, unloop_cells(of.at, of.length, cells, length)); break;
    case GATHER:
        IN_ROOMS(UNLOOP_BLOCK_WORDS, reply.count, unloop_gather(of.at, of.length, rendered, length, order, UNLOOP_GATES));
        IN_ROOMS(UNLOOP_GATES, gates_of(of), unloop_gather(of.at, of.length, rendered, UNLOOP_BLOCK_WORDS, order, length));
        break;
    default: break;
    }
}

/* Settle and Pass from bytes. */
static void on_setting(enum operation operation, words of, const uint8_t *setting, size_t bytes)
{
    if (operation == SETTLE)
        IN_ROOMS(UNLOOP_GATES, gates_of(of), unloop_settle(of.at, of.length, setting, bytes, values, length));
    else
        IN_ROOMS(UNLOOP_GATES, gates_of(of), unloop_pass(of.at, of.length, setting, bytes, values, length));
}

/* What goes on from a rendering: Compare, its cells, their run, CompareCells, and the way out and back. */
static void on_rendering(words of, const uint8_t *setting)
{
    unloop_reply told = unloop_render(of.at, of.length, rendered, UNLOOP_BLOCK_WORDS);

    if (told.number != 0)
        return;
    unloop_compare(of.at, of.length, rendered, told.count);
    size_t inputs = of.at[0], outputs = of.at[2], first = told.count - 5 * outputs;
    uint16_t shown[16];
    for (size_t output = 0; output < outputs && output < 16; output++)
        shown[output] = rendered[first + 5 * output + 4];
    told = unloop_cells(rendered, told.count, cells, UNLOOP_CELLS_WORDS);
    IN_ROOMS(UNLOOP_GATES, told.count / 5, unloop_run(inputs, cells, told.count, setting, inputs, values, length));
    unloop_compare_cells(of.at, of.length, cells, told.count, shown, outputs);
}

/* Read, and where it gives a block every operation on it, from a setting that the text's last bytes are. */
static void on_text(const uint8_t *bytes, size_t count)
{
    IN_ROOMS(UNLOOP_BLOCK_WORDS, reply.count, unloop_read(bytes, count, block, length));
    unloop_reply told = unloop_read(bytes, count, block, UNLOOP_BLOCK_WORDS);
    if (told.number != 0)
        return;
    words of = {block, told.count};
    uint8_t setting[12] = {0};
    for (size_t input = 0; input < 12 && input < count; input++)
        setting[input] = bytes[count - 1 - input] % 3;
    for (enum operation operation = WRITE; operation <= GATHER; operation++)
        on_words(operation, of);
    on_setting(SETTLE, of, setting, block[0]);
    on_setting(PASS, of, setting, block[0]);
    for (size_t input = 0; input < 12; input++)
        setting[input] %= 2;
    on_rendering(of, setting);
}

/* A sheet of the records that the rest holds: two masks each, between which nothing stands. */
static void on_records(words of, rest input)
{
    size_t count = input.length / 4;
    unloop_record *records = calloc(count + 1, sizeof *records);

    for (size_t at = 0; at < count; at++) {
        records[at].fixed = (uint16_t)number(&input);
        records[at].ones = (uint16_t)number(&input);
    }
    unloop_sheet(of.at, of.length, records, count);
    free(records);
}

/* An operation on two or three slices; `first` is the one before the rest. */
static void on_slices(enum operation operation, size_t inputs, words first, rest *input)
{
    words second = taken(input, operation != RUN && operation != COMPARE_CELLS, operation == SETTLE || operation == PASS ? 1 : 2);
    words third = {NULL, 0};

    switch (operation) {
    case COMPARE: unloop_compare(first.at, first.length, second.at, second.length); break;
    case SCATTER: IN_ROOMS(UNLOOP_BLOCK_WORDS, reply.count, unloop_scatter(first.at, first.length, second.at, second.length, rendered, length)); break;
    case COMPARE_CELLS:
        third = taken(input, 1, 2);
        unloop_compare_cells(first.at, first.length, second.at, second.length, third.at, third.length);
        break;
    case RUN:
        third = taken(input, 1, 1);
        IN_ROOMS(UNLOOP_GATES, reply.count, unloop_run(inputs, second.at, second.length, (uint8_t *)third.at, third.length, values, length));
        break;
    default: on_setting(operation, first, (uint8_t *)second.at, second.length);
    }
    free(second.at);
    free(third.at);
}

int LLVMFuzzerTestOneInput(const uint8_t *bytes, size_t length)
{
    rest input = {bytes, length};
    words first = {NULL, 0};

    if (length == 0)
        return 0;
    enum operation operation = bytes[0] % OPERATIONS;
    input.bytes++, input.length--;
    if (operation == READ) {
        on_text(input.bytes, input.length);
    } else if (operation == LINE) {
        size_t place = number(&input);
        unloop_line(input.bytes, input.length, place);
    } else if (operation == RUN) {
        size_t inputs = number(&input);
        on_slices(operation, inputs, first, &input);
    } else if (operation == SHEET) {
        first = taken(&input, 0, 2);
        on_records(first, input);
    } else if (operation == SETTLE || operation == PASS || operation == COMPARE || operation == COMPARE_CELLS || operation == SCATTER) {
        first = taken(&input, 0, 2);
        on_slices(operation, 0, first, &input);
    } else {
        first = taken(&input, 1, 2);
        on_words(operation, first);
    }
    free(first.at);
    return 0;
}
