/* What include/unloop.h says of slices: an empty one may be lent as NULL, and those that are only read may overlap. And its version macros. */
#include "check.h"

/* The block of the empty text, as of today and as it was stored before there were never lines. */
static const uint16_t empty[] = {0, 0, 0, 0}, old_empty[] = {0, 0, 0};

/* (in s) (gate p (not s)) (out y p), which is straight; its inputs' count, 1, is also the first of its bytes. */
static const uint16_t straight[] = {1, 1, 1, 0, 's', 0, 0, 0, 8, 0, 0, 0, 0, 'y', 0, 0, 0, 1};

/* (gate p (not p)) (out y p): no setting is settled, and so the cover is empty. */
static const uint16_t unsettled[] = {0, 1, 1, 0, 8, 0, 0, 0, 0, 'y', 0, 0, 0, 0};

/* Texts, settings, values and words that are empty slices, at the pointers given. */
static void lend_no_bytes(uint8_t *bytes, uint16_t *words)
{
    const uint8_t setting[] = {1};
    uint16_t block[4];

    answers(unloop_read(bytes, 0, block, LENGTH(block)), 0, 4, 0, "read of no text");
    check(memcmp(block, empty, sizeof empty) == 0, "the words of no text");
    answers(unloop_read((const uint8_t *)"(", 1, words, 0), 2, 0, 1, "read to nowhere");
    answers(unloop_read(bytes, 0, words, 0), 11, 0, 0, "read of no text to nowhere");
    answers(unloop_write(words, 0, bytes, 0), 6, 0, 0, "write of no words");
    answers(unloop_write(empty, 4, bytes, 0), 0, 0, 0, "write of the empty block to nowhere");
    answers(unloop_write(straight, LENGTH(straight), bytes, 0), 11, 0, 0, "write to nowhere");
    answers(unloop_settle(words, 0, bytes, 0, bytes, 0), 6, 0, 0, "settle of no words");
    answers(unloop_settle(empty, 4, bytes, 0, bytes, 0), 0, 0, 0, "settle without inputs and gates");
    answers(unloop_settle(straight, LENGTH(straight), bytes, 0, bytes, 0), 7, 0, 0, "settle from no setting");
    answers(unloop_settle(straight, LENGTH(straight), setting, 1, bytes, 0), 11, 0, 0, "settle to nowhere");
    answers(unloop_pass(words, 0, bytes, 0, bytes, 0), 6, 0, 0, "pass of no words");
    answers(unloop_pass(empty, 4, bytes, 0, bytes, 0), 0, 0, 0, "pass without inputs and gates");
    answers(unloop_pass(straight, LENGTH(straight), bytes, 0, bytes, 0), 7, 0, 0, "pass from no setting");
    answers(unloop_pass(straight, LENGTH(straight), setting, 1, bytes, 0), 11, 0, 0, "pass to nowhere");
    answers(unloop_run(0, words, 0, bytes, 0, bytes, 0), 0, 0, 0, "run of no cells without inputs");
    answers(unloop_run(1, words, 0, bytes, 0, bytes, 0), 7, 0, 0, "run from no setting");
    unloop_span span = unloop_line(bytes, 0, 7);
    check(span.start == 0 && span.length == 0, "the line of no text");
}

/* The operations on words alone, and the sheet. */
static void lend_no_words(uint16_t *words, unloop_record *records)
{
    uint16_t block[4];

    answers(unloop_sheet(words, 0, records, 0), 6, 0, 0, "sheet of no words");
    answers(unloop_sheet(straight, LENGTH(straight), records, 0), 0, 0, 0, "sheet of no records");
    answers(unloop_verdict(words, 0), 6, 0, 0, "verdict of no words");
    answers(unloop_cover(words, 0, words, 0), 6, 0, 0, "cover of no words");
    answers(unloop_cover(unsettled, LENGTH(unsettled), words, 0), 0, 0, 0, "an empty cover to nowhere");
    answers(unloop_cover(straight, LENGTH(straight), words, 0), 11, 0, 0, "cover to nowhere");
    answers(unloop_groups(words, 0, words, 0), 6, 0, 0, "groups of no words");
    answers(unloop_groups(empty, 4, words, 0), 0, 0, 0, "groups of no gates to nowhere");
    answers(unloop_groups(straight, LENGTH(straight), words, 0), 11, 0, 0, "groups to nowhere");
    answers(unloop_render(words, 0, words, 0), 6, 0, 0, "render of no words");
    answers(unloop_render(unsettled, LENGTH(unsettled), words, 0), 9, 0, 0, "render of what does not settle to nowhere");
    answers(unloop_render(straight, LENGTH(straight), words, 0), 11, 0, 0, "render to nowhere");
    answers(unloop_compare(words, 0, words, 0), 6, 0, 0, "compare of no words");
    answers(unloop_compare(straight, LENGTH(straight), words, 0), 6, 0, 0, "compare with no words");
    answers(unloop_compare_cells(words, 0, words, 0, words, 0), 6, 0, 0, "compare cells of no words");
    answers(unloop_compare_cells(empty, 4, words, 0, words, 0), 0, 0, 0, "no cells and no list for the empty block");
    answers(unloop_compare_cells(straight, LENGTH(straight), words, 0, words, 0), 12, 0, 0, "no cells and no list for an output");
    answers(unloop_bring(words, 0, words, 0), 6, 0, 0, "bring of no words");
    answers(unloop_bring(old_empty, 3, words, 0), 11, 0, 0, "bring to nowhere");
    answers(unloop_cells(words, 0, words, 0), 6, 0, 0, "cells of no words");
    answers(unloop_cells(empty, 4, words, 0), 0, 0, 0, "cells of no gates to nowhere");
    answers(unloop_cells(straight, LENGTH(straight), words, 0), 11, 0, 0, "cells to nowhere");
    answers(unloop_gather(words, 0, words, 0, words, 0), 6, 0, 0, "gather of no words");
    answers(unloop_gather(empty, 4, block, 4, words, 0), 0, 4, 0, "gather of no gates, the list to nowhere");
    answers(unloop_gather(straight, LENGTH(straight), words, 0, words, 0), 11, 0, 0, "gather to nowhere");
    answers(unloop_scatter(words, 0, words, 0, words, 0), 6, 0, 0, "scatter of no words");
    answers(unloop_scatter(empty, 4, words, 0, block, 4), 0, 4, 0, "scatter of no gates by no list");
    answers(unloop_scatter(empty, 4, words, 0, words, 0), 11, 0, 0, "scatter to nowhere");
}

/* The answers are those of empty slices, whatever the pointers are. */
static void lend_nothing(void *at, const char *where)
{
    const int before = failures;

    lend_no_bytes(at, at);
    lend_no_words(at, at);
    if (failures > before)
        fprintf(stderr, "with empty slices at %s\n", where);
}

/* Slices that are only read are the same, or one is a part of the other. */
static void read_overlaps(void)
{
    /* A not of nothing but constants, twice, and an and of the nodes 0, 1, 2: that operands are the list of gates in their order. */
    static const uint16_t block[] = {0, 3, 0, 0, 8, 65535, 0, 0, 0, 8, 65535, 0, 0, 0, 25, 0, 1, 2, 0};
    static const uint16_t cells[] = {1, 65534, 65534, 65534, 0x5555}, inverter[] = {0, 65534, 65534, 65534, 0x5555};
    uint16_t original[LENGTH(block)];
    uint8_t values[1] = {9};

    answers(unloop_compare(straight, LENGTH(straight), straight, LENGTH(straight)), 0, 0, 0, "compare of a block with itself");
    answers(unloop_compare_cells(straight, LENGTH(straight), cells, LENGTH(cells), cells, 1), 6, 0, 0, "cells that read themselves");
    answers(unloop_compare_cells(straight, LENGTH(straight), inverter, LENGTH(inverter), straight, 1), 0, 0, 0, "a list in the block's words");
    answers(unloop_settle(straight, LENGTH(straight), (const uint8_t *)straight, 1, values, 1), 0, 1, 0, "settle from a byte of the block");
    check(values[0] == 0, "the value of settle from a byte of the block");
    values[0] = 9;
    answers(unloop_pass(straight, LENGTH(straight), (const uint8_t *)straight, 1, values, 1), 0, 1, 0, "pass from a byte of the block");
    check(values[0] == 0, "the value of pass from a byte of the block");
    answers(unloop_run(2, cells, LENGTH(cells), (const uint8_t *)cells, 2, values, 1), 0, 1, 0, "run from bytes of the cells");
    check(values[0] == 1, "the value of the run from bytes of the cells");
    answers(unloop_scatter(block, LENGTH(block), block + 15, 3, original, LENGTH(original)), 0, LENGTH(block), 0, "scatter by words of the block");
    check(memcmp(block, original, sizeof block) == 0, "the words scattered by words of the block");
}

static void version(void)
{
    char told[32];

    snprintf(told, sizeof told, "%d.%d.%d", UNLOOP_VERSION_MAJOR, UNLOOP_VERSION_MINOR, UNLOOP_VERSION_PATCH);
    check(strcmp(told, UNLOOP_VERSION) == 0, "the version's parts");
}

int main(void)
{
    unloop_record place;

    lend_nothing(&place, "a place");
    lend_nothing(NULL, "NULL");
    lend_nothing((void *)64, "a place that can't be read");
    read_overlaps();
    version();
    return ended("edges");
}
