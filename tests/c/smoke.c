/* Calls every function of include/unloop.h on worked examples of docs/SPECIFICATION.md, and says where an answer is another. */
#include "check.h"

/* Specimen 9: its words, its text, and the text of its rendering. */
static const uint16_t looped[] = {1, 2, 1, 0, 's', 0, 0, 0, 17, 0, 2, 0, 0, 18, 0, 1, 0, 0, 'y', 0, 0, 0, 2};
static const char netlist[] = "(in s)\n(gate p (and s q))\n(gate q (or s p))\n(out y q)\n";
static const char written[] = "(in s)\n(gate _0 (and s 0))\n(gate _1 (or s _0))\n(gate _2 (and s _1))\n(gate _3 (or s _2))\n(out y _3)\n";

/* Specimen 5: (gate p (or p (not p))) (out y p). */
static const uint16_t unsettled[] = {0, 2, 1, 0, 8, 1, 0, 0, 0, 18, 1, 0, 0, 0, 'y', 0, 0, 0, 1};

/* Specimen 4: (in a) (in b) (gate p (and a q)) (gate q (or b p)) (out y q). */
static const uint16_t waiting[] = {2, 2, 1, 0, 'a', 0, 0, 0, 'b', 0, 0, 0, 17, 0, 3, 0, 0, 18, 1, 2, 0, 0, 'y', 0, 0, 0, 3};

static void read_specimen(void)
{
    const uint8_t *text = (const uint8_t *)netlist;
    const size_t bytes = sizeof netlist - 1;
    uint16_t block[LENGTH(looped)];

    answers(unloop_read(text, bytes, block, LENGTH(block)), 0, LENGTH(looped), 0, "read");
    check(memcmp(block, looped, sizeof looped) == 0, "the words read");
    answers(unloop_read(text, bytes - 1, block, LENGTH(block)), 2, 0, bytes - 1, "read of a text cut off");
    answers(unloop_read(text, bytes, block, LENGTH(block) - 1), 11, 0, 0, "read, one word short");
}

/* The loop of specimen 4 with two outputs, under several settings in one call. */
static void fill_sheet(void)
{
    static const char two[] = "(in a)\n(in b)\n(gate p (and a q))\n(gate q (or b p))\n(out y q)\n(out z a)\n";
    unloop_record records[] = {{3, 2, 9, 9, 9}, {2, 2, 9, 9, 9}, {1, 3, 9, 9, 9}, {0, 0, 9, 9, 9}};
    uint16_t block[UNLOOP_BLOCK_WORDS];
    const size_t words = unloop_read((const uint8_t *)two, sizeof two - 1, block, LENGTH(block)).count;

    answers(unloop_sheet(block, words, records, 3), 0, 3, 0, "sheet");
    check(records[0].number == 0 && records[0].defined == 3 && records[0].values == 1, "a record of the sheet");
    check(records[1].number == 0 && records[1].defined == 1 && records[1].values == 1, "a record with a free input");
    check(records[2].number == 7 && records[2].defined == 0 && records[2].values == 0, "a record with 7");
    check(records[2].fixed == 1 && records[2].ones == 3, "the masks of inputs");
    check(records[3].number == 9 && records[3].defined == 9 && records[3].values == 9, "the record behind the sheet");
    answers(unloop_sheet(block, words - 1, records, 4), 6, 0, 0, "sheet of torn words");
    check(records[3].number == 9, "no record changes with 6");
}

/* Specimen 9 and what may be sent for it: its rendering by hand, the output at 1, and another port. */
static void compare_specimens(void)
{
    static const uint16_t shown[] = {1, 0, 1, 0, 's', 0, 0, 0, 'y', 0, 0, 0, 0};
    static const uint16_t one[] = {1, 1, 1, 0, 's', 0, 0, 0, 18, 0, 65535, 0, 0, 'y', 0, 0, 0, 1};
    static const uint16_t renamed[] = {1, 0, 1, 0, 's', 0, 0, 0, 'z', 0, 0, 0, 0};

    answers(unloop_compare(looped, LENGTH(looped), shown, LENGTH(shown)), 0, 0, 0, "compare, accepted");
    answers(unloop_compare(looped, LENGTH(looped), one, LENGTH(one)), 0, 1, 0, "compare, another value");
    answers(unloop_compare(looped, LENGTH(looped), renamed, LENGTH(renamed)), 12, 0, 0, "compare, another port");
    answers(unloop_compare(looped, LENGTH(looped), looped, LENGTH(looped)), 10, 0, 0, "compare with a loop");
    answers(unloop_compare(looped, LENGTH(looped) - 1, shown, LENGTH(shown)), 6, 0, 0, "compare of torn words");
}

/* The words of specimen 4 as they were before there were never lines, brought over; then with a never line on their one unsettled setting. */
static void bring_specimen(void)
{
    static const char never[] = "(in a)\n(in b)\n(never (a 1) (b 0))\n(gate p (and a q))\n(gate q (or b p))\n(out y q)\n";
    uint16_t old[LENGTH(waiting) - 1], block[LENGTH(waiting) + 2];

    memcpy(old, waiting, 3 * sizeof *old);
    memcpy(old + 3, waiting + 4, (LENGTH(waiting) - 4) * sizeof *old);
    answers(unloop_bring(old, LENGTH(old), block, LENGTH(waiting)), 0, LENGTH(waiting), 0, "bring");
    check(memcmp(block, waiting, sizeof waiting) == 0, "the words brought over");
    answers(unloop_bring(old, LENGTH(old), block, LENGTH(old)), 11, 0, 0, "bring, one word short");
    answers(unloop_bring(waiting, LENGTH(waiting), block, LENGTH(block)), 6, 0, 0, "bring of words of today");
    answers(unloop_read((const uint8_t *)never, sizeof never - 1, block, LENGTH(block)), 0, LENGTH(block), 0, "read of a never line");
    answers(unloop_verdict(block, LENGTH(block)), 0, 3, 4, "verdict with a never line");
}

/* The rendering of specimen 9 by hand as cells, and run: and, or, and, or of two operands, the others absent. */
static void run_cells(void)
{
    static const uint16_t expected[] = {0, 65534, 65534, 65534, 0x8888, 0, 1, 65534, 65534, 0xEEEE,
                                        0, 2, 65534, 65534, 0x8888, 0, 3, 65534, 65534, 0xEEEE};
    const uint8_t one[] = {1}, undefined[] = {2};
    uint16_t rendered[33], cells[21];
    uint8_t values[5] = {9, 9, 9, 9, 9};

    answers(unloop_render(looped, LENGTH(looped), rendered, LENGTH(rendered)), 0, 33, 0, "render for cells");
    cells[20] = 9;
    answers(unloop_cells(rendered, 33, cells, LENGTH(cells)), 0, 20, 0, "cells");
    check(memcmp(cells, expected, sizeof expected) == 0 && cells[20] == 9, "the words of the cells");
    answers(unloop_cells(rendered, 33, cells, 19), 11, 0, 0, "cells, one word short");
    answers(unloop_cells(looped, LENGTH(looped), cells, 0), 10, 0, 0, "cells of a loop");
    answers(unloop_cells(rendered, 32, cells, LENGTH(cells)), 6, 0, 0, "cells of torn words");
    answers(unloop_compare_cells(looped, LENGTH(looped), cells, 20, rendered + 32, 1), 0, 0, 0, "compare cells, accepted");
    answers(unloop_compare_cells(looped, LENGTH(looped), cells, 20, rendered + 32, 0), 12, 0, 0, "compare cells without a list");
    answers(unloop_run(1, cells, 20, one, 1, values, LENGTH(values)), 0, 4, 0, "run");
    check(values[0] == 0 && values[1] == 1 && values[2] == 1 && values[3] == 1 && values[4] == 9, "the values of the run");
    answers(unloop_run(1, cells, 20, undefined, 1, values, LENGTH(values)), 7, 0, 0, "run from an undefined input");
    answers(unloop_run(1, cells, 20, one, 1, values, 3), 11, 0, 0, "run, one byte short");
    answers(unloop_run(0, cells, 20, one, 0, values, LENGTH(values)), 6, 0, 0, "run with an input missing");
    answers(unloop_run((size_t)-1, cells, 20, one, 1, values, LENGTH(values)), 6, 0, 0, "run with too many inputs");
    answers(unloop_run(1, cells, 19, one, 1, values, LENGTH(values)), 6, 0, 0, "run of part of a cell");
}

/* Gates 0 and 2 read each other, gate 1 reads both: gathered, it comes last. */
static void gather_neighbours(void)
{
    static const uint16_t apart[] = {0, 3, 1, 0, 8, 2, 0, 0, 0, 17, 0, 2, 0, 0, 8, 0, 0, 0, 0, 'y', 0, 0, 0, 1};
    static const uint16_t together[] = {0, 3, 1, 0, 8, 1, 0, 0, 0, 8, 0, 0, 0, 0, 17, 0, 1, 0, 0, 'y', 0, 0, 0, 2};
    static const uint16_t twice[] = {0, 2, 2};
    uint16_t block[LENGTH(apart)], order[4] = {9, 9, 9, 9};

    answers(unloop_gather(apart, LENGTH(apart), block, LENGTH(block), order, 2), 11, 0, 0, "gather, the list one short");
    check(order[0] == 9, "a list that is short is not altered");
    answers(unloop_gather(apart, LENGTH(apart), block, LENGTH(block), order, 4), 0, LENGTH(apart), 0, "gather");
    check(memcmp(block, together, sizeof together) == 0, "the gathered words");
    check(order[0] == 0 && order[1] == 2 && order[2] == 1 && order[3] == 9, "the list of old numbers");
    answers(unloop_gather(apart, LENGTH(apart) - 1, block, LENGTH(block), order, 4), 6, 0, 0, "gather of torn words");
    answers(unloop_scatter(together, LENGTH(together), order, 3, block, LENGTH(block)), 0, LENGTH(apart), 0, "scatter");
    check(memcmp(block, apart, sizeof apart) == 0, "the scattered words");
    answers(unloop_scatter(together, LENGTH(together), twice, 3, block, LENGTH(block)), 13, 0, 0, "scatter by a list with a repeat");
    answers(unloop_scatter(together, LENGTH(together), order, 4, block, 0), 13, 0, 0, "scatter by a longer list");
    answers(unloop_scatter(together, LENGTH(together), order, 3, block, LENGTH(block) - 1), 11, 0, 0, "scatter, one word short");
}

int main(void)
{
    static uint16_t rendered[UNLOOP_BLOCK_WORDS];
    static uint8_t text[UNLOOP_TEXT_BYTES];
    static uint16_t words[UNLOOP_COVER_WORDS];
    uint8_t values[4] = {9, 9, 9, 9};
    const uint8_t one[] = {1}, bad[] = {3}, a_1_b_0[] = {1, 0};

    read_specimen();
    fill_sheet();
    answers(unloop_render(looped, LENGTH(looped), rendered, LENGTH(rendered)), 0, 33, 0, "render");
    answers(unloop_write(rendered, 33, text, sizeof text), 0, sizeof written - 1, 0, "write");
    check(memcmp(text, written, sizeof written - 1) == 0, "the written text");
    answers(unloop_write(rendered, 33, text, sizeof written - 2), 11, 0, 0, "write, one byte short");
    answers(unloop_pass(rendered, 33, one, 1, values, 4), 0, 4, 0, "pass");
    check(values[0] == 0 && values[1] == 1 && values[2] == 1 && values[3] == 1, "the values of pass");
    answers(unloop_pass(looped, LENGTH(looped), one, 1, values, 4), 10, 0, 0, "pass on a loop");
    answers(unloop_settle(looped, LENGTH(looped), one, 1, values, 4), 0, 2, 0, "settle");
    check(values[0] == 1 && values[1] == 1 && values[2] == 1 && values[3] == 1, "the values of settle");
    answers(unloop_settle(looped, LENGTH(looped), bad, 1, values, 4), 7, 0, 0, "settle from a bad setting");
    answers(unloop_settle(waiting, LENGTH(waiting), a_1_b_0, 2, values, 2), 0, 0, 0, "settle, undefined");
    check(values[0] == 2 && values[1] == 2 && values[2] == 1, "the undefined values");
    answers(unloop_verdict(looped, LENGTH(looped)), 0, 2, 2, "verdict");
    answers(unloop_verdict(waiting, LENGTH(waiting)), 0, 3, 1, "verdict of specimen 4");
    answers(unloop_verdict(looped, LENGTH(looped) - 1), 6, 0, 0, "verdict of torn words");
    answers(unloop_cover(waiting, LENGTH(waiting), words, LENGTH(words)), 0, 2, 0, "cover");
    check(words[0] == 1 && words[1] == 0 && words[2] == 2 && words[3] == 2 && words[4] == 0, "the entries");
    answers(unloop_groups(unsettled, LENGTH(unsettled), words, 2), 0, 1, 0, "groups");
    check(words[0] == 0 && words[1] == 0, "the group numbers");
    answers(unloop_render(unsettled, LENGTH(unsettled), rendered, LENGTH(rendered)), 9, 0, 0, "render of specimen 5");
    answers(unloop_render(waiting, LENGTH(waiting), rendered, 0), 9, 0, 1, "render of specimen 4");
    compare_specimens();
    bring_specimen();
    run_cells();
    gather_neighbours();
    unloop_span span = unloop_line((const uint8_t *)written, sizeof written - 1, 10);
    check(span.start == 7 && span.length == 19, "line");
    return ended("smoke");
}
