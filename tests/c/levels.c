/* Every function of include/unloop.h over three builds of one proved module: as it ships (-O3), at -O0, and a third (at -O1; for the fuzzer, the one
   that tells which code was reached). The builds' functions are called o3_unloop_read, o0_unloop_read, other_unloop_read and so on. Each build is
   lent slices of its own with the same content. Where a number, a count, a detail or any element differs, or something around a slice was altered,
   this is told and the program ends; else the caller has the answer and the slices of what ships. */
#include "unloop.h"
#include <stdio.h>
#include <stdlib.h>
#include <string.h>

#define BUILDS 3
#define GUARD 64 /* bytes on both sides of a copy, which no build may touch */
#define GUARD_BYTE 0xa5

/* A slice that is written: the caller's own, and a copy for each further build. */
typedef struct lent {
    uint8_t *caller;
    size_t bytes;
    uint8_t *held[BUILDS];
} lent;

static void differ(const char *operation, const char *what)
{
    fprintf(stderr, "DIFFERS: unloop_%s: %s\n", operation, what);
    abort();
}

static lent lend(void *slice, size_t bytes)
{
    lent out = {slice, bytes, {NULL}};

    for (int build = 1; build < BUILDS; build++) {
        uint8_t *held = malloc(GUARD + bytes + GUARD);
        if (held == NULL)
            abort();
        memset(held, GUARD_BYTE, GUARD);
        if (bytes > 0)
            memcpy(held + GUARD, slice, bytes);
        memset(held + GUARD + bytes, GUARD_BYTE, GUARD);
        out.held[build] = held;
    }
    return out;
}

/* The slice of a build; of an empty one that the caller has at NULL, NULL. */
static void *slice(const lent *out, int build)
{
    return build == 0 || out->caller == NULL ? out->caller : out->held[build] + GUARD;
}

static int is_guarded(const uint8_t *guard)
{
    for (size_t byte = 0; byte < GUARD; byte++)
        if (guard[byte] != GUARD_BYTE)
            return 0;
    return 1;
}

/* Every build left the same in its slice, and nothing around it was touched. */
static void same_slices(const char *operation, lent *out)
{
    for (int build = 1; build < BUILDS; build++) {
        uint8_t *held = out->held[build];
        if (!is_guarded(held) || !is_guarded(held + GUARD + out->bytes))
            differ(operation, "something around a slice was altered");
        if (out->bytes > 0 && memcmp(held + GUARD, out->caller, out->bytes) != 0)
            differ(operation, "another result in the slice");
        free(held);
    }
}

static unloop_reply same_replies(const char *operation, const unloop_reply *told)
{
    for (int build = 1; build < BUILDS; build++)
        if (memcmp(&told[build], told, sizeof *told) != 0) {
            for (int each = 0; each < BUILDS; each++)
                fprintf(stderr, "  %zu %zu %zu\n", told[each].number, told[each].count, told[each].detail);
            differ(operation, "another number, count or detail");
        }
    return told[0];
}

/* Calls each build of a function; `build` stands in the arguments for which one. */
#define CALL_EACH(name, ...)                                                                                 \
    extern __typeof__(unloop_##name) o3_unloop_##name, o0_unloop_##name, other_unloop_##name;                \
    __typeof__(unloop_##name) *const builds[BUILDS] = {o3_unloop_##name, o0_unloop_##name, other_unloop_##name}; \
    for (int build = 0; build < BUILDS; build++)                                                             \
        told[build] = builds[build](__VA_ARGS__)

/* The whole body of a function that lends nothing. */
#define ANSWER(name, ...)                                                                                    \
    unloop_reply told[BUILDS];                                                                               \
    CALL_EACH(name, __VA_ARGS__);                                                                            \
    return same_replies(#name, told)

/* The whole body of a function that lends one slice, which is `OUT` in the arguments. */
#define OUT slice(&out, build)
#define ANSWER_IN(lent_slice, length, name, ...)                                                             \
    lent out = lend(lent_slice, (length) * sizeof *(lent_slice));                                            \
    unloop_reply told[BUILDS];                                                                               \
    CALL_EACH(name, __VA_ARGS__);                                                                            \
    same_slices(#name, &out);                                                                                \
    return same_replies(#name, told)

unloop_reply unloop_read(const uint8_t *text, size_t text_length, uint16_t *block, size_t block_length)
{
    ANSWER_IN(block, block_length, read, text, text_length, OUT, block_length);
}

unloop_reply unloop_write(const uint16_t *block, size_t block_length, uint8_t *text, size_t text_length)
{
    ANSWER_IN(text, text_length, write, block, block_length, OUT, text_length);
}

unloop_reply unloop_settle(const uint16_t *block, size_t block_length, const uint8_t *setting, size_t setting_length,
                           uint8_t *values, size_t values_length)
{
    ANSWER_IN(values, values_length, settle, block, block_length, setting, setting_length, OUT, values_length);
}

unloop_reply unloop_pass(const uint16_t *block, size_t block_length, const uint8_t *setting, size_t setting_length,
                         uint8_t *values, size_t values_length)
{
    ANSWER_IN(values, values_length, pass, block, block_length, setting, setting_length, OUT, values_length);
}

unloop_reply unloop_sheet(const uint16_t *block, size_t block_length, unloop_record *records, size_t records_length)
{
    ANSWER_IN(records, records_length, sheet, block, block_length, OUT, records_length);
}

unloop_reply unloop_verdict(const uint16_t *block, size_t block_length)
{
    ANSWER(verdict, block, block_length);
}

unloop_reply unloop_cover(const uint16_t *block, size_t block_length, uint16_t *entries, size_t entries_length)
{
    ANSWER_IN(entries, entries_length, cover, block, block_length, OUT, entries_length);
}

unloop_reply unloop_groups(const uint16_t *block, size_t block_length, uint16_t *numbers, size_t numbers_length)
{
    ANSWER_IN(numbers, numbers_length, groups, block, block_length, OUT, numbers_length);
}

unloop_reply unloop_render(const uint16_t *block, size_t block_length, uint16_t *rendered, size_t rendered_length)
{
    ANSWER_IN(rendered, rendered_length, render, block, block_length, OUT, rendered_length);
}

unloop_reply unloop_compare(const uint16_t *ours, size_t ours_length, const uint16_t *theirs, size_t theirs_length)
{
    ANSWER(compare, ours, ours_length, theirs, theirs_length);
}

unloop_reply unloop_compare_cells(const uint16_t *block, size_t block_length, const uint16_t *cells, size_t cells_length,
                                  const uint16_t *shown, size_t shown_length)
{
    ANSWER(compare_cells, block, block_length, cells, cells_length, shown, shown_length);
}

unloop_reply unloop_bring(const uint16_t *old, size_t old_length, uint16_t *block, size_t block_length)
{
    ANSWER_IN(block, block_length, bring, old, old_length, OUT, block_length);
}

unloop_reply unloop_cells(const uint16_t *block, size_t block_length, uint16_t *cells, size_t cells_length)
{
    ANSWER_IN(cells, cells_length, cells, block, block_length, OUT, cells_length);
}

unloop_reply unloop_run(size_t inputs, const uint16_t *cells, size_t cells_length, const uint8_t *setting, size_t setting_length,
                        uint8_t *values, size_t values_length)
{
    ANSWER_IN(values, values_length, run, inputs, cells, cells_length, setting, setting_length, OUT, values_length);
}

unloop_reply unloop_gather(const uint16_t *block, size_t block_length, uint16_t *gathered, size_t gathered_length,
                           uint16_t *order, size_t order_length)
{
    lent list = lend(order, order_length * sizeof *order);
    lent out = lend(gathered, gathered_length * sizeof *gathered);
    unloop_reply told[BUILDS];
    CALL_EACH(gather, block, block_length, OUT, gathered_length, slice(&list, build), order_length);
    same_slices("gather", &out);
    same_slices("gather", &list);
    return same_replies("gather", told);
}

unloop_reply unloop_scatter(const uint16_t *block, size_t block_length, const uint16_t *order, size_t order_length,
                            uint16_t *original, size_t original_length)
{
    ANSWER_IN(original, original_length, scatter, block, block_length, order, order_length, OUT, original_length);
}

unloop_span unloop_line(const uint8_t *text, size_t text_length, size_t place)
{
    unloop_span told[BUILDS];
    CALL_EACH(line, text, text_length, place);
    for (int build = 1; build < BUILDS; build++)
        if (memcmp(&told[build], told, sizeof *told) != 0)
            differ("line", "another start or length");
    return told[0];
}
