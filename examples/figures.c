/* Calls pumdalin_figures from C on the sheets with known figures, and once for each
 * refusal. A wrong number, or a wrong byte anywhere in the answer area or before it, makes the exit
 * status 1; the sheet lies in read-only memory, and a byte read or written past the end of sheet or
 * area ends the program. */
#define _DEFAULT_SOURCE /* for MAP_ANONYMOUS */

#include <pumdalin.h>

#include "guarded.h"
#include "records.h"

static const uint8_t costs[] = {LOOP(2, 1, 1), CONSTANT(0), CONSTANT(9), WORK(3, 5), END};
static const uint8_t triangle[] = {
    LOOP(0, 0, 1), CONSTANT(0), CONSTANT(9),
    LOOP(0, 0, 1), CONSTANT(0), INDEX_I(-1), WORK(1, 1), END, END};
static const uint8_t partly_empty[] = {
    LOOP(0, 0, 1), CONSTANT(1), CONSTANT(7),
    LOOP(0, 0, 1), INDEX_I(0), CONSTANT(2), WORK(1, 1), END, END};
static const uint8_t uneven[] = {
    LOOP(0, 0, 1), CONSTANT(0), CONSTANT(9),
    LOOP(0, 0, 2), CONSTANT(0), INDEX_I(0), WORK(1, 1), END, END};
static const uint8_t even[] = {
    LOOP(0, 0, 2), CONSTANT(0), CONSTANT(18),
    LOOP(0, 0, 2), CONSTANT(0), INDEX_I(0), WORK(1, 1), END, END};
static const uint8_t three_deep[] = {
    LOOP(0, 0, 1), CONSTANT(0), CONSTANT(9),
    LOOP(0, 0, 1), INDEX_I(0), CONSTANT(10),
    LOOP(0, 0, 1), INDEX_I(-3), INDEX_J(7), WORK(1, 1), END, END, END};
static const uint8_t parameter[] = {
    LOOP(0, 0, 1), CONSTANT(1), PARAMETER_1,
    LOOP(0, 0, 1), INDEX_I(0), PARAMETER_1, WORK(1, 1), END, END};
static const uint8_t loop_in_arm[] = {
    LOOP(0, 0, 1), CONSTANT(0), CONSTANT(9),
    CHOICE, LOOP(0, 0, 1), CONSTANT(0), INDEX_I(-1), WORK(1, 1), END,
    NEXT_ARM, WORK(4, 4), END, END};
static const uint8_t no_trip[] = {LOOP(0, 0, 3), CONSTANT(0), CONSTANT(-1), WORK(1, 1), END};
static const uint8_t longest_loop[] = {LOOP(0, 0, 1), CONSTANT(0), CONSTANT(2047), WORK(1, 1), END};
static const uint8_t too_long_loop[] = {LOOP(0, 0, 1), CONSTANT(0), CONSTANT(2048), WORK(1, 1), END};
static const uint8_t skipped[] = {SKIP_LOOP(5, 1, 1), CONSTANT(0), CONSTANT(-1), SKIP(2), WORK(1, 1), END};
static const uint8_t first_skipped[] = {
    LOOP(0, 0, 1), CONSTANT(0), CONSTANT(9),
    SKIP_LOOP(4, 0, 1), CONSTANT(0), INDEX_I(-1), SKIP(1), WORK(1, 1), END, END};
/* From the last nozzle to the first, each with as many pulses as its number. */
static const uint8_t flush[] = {
    LOOP(0, 0, -1), PARAMETER_1, CONSTANT(1),
    LOOP(0, 0, -1), INDEX_I(0), CONSTANT(1), WORK(4, 7), END, END};
static const uint8_t uneven_down[] = {
    LOOP(0, 0, -1), CONSTANT(9), CONSTANT(0),
    LOOP(0, 0, -2), INDEX_I(0), CONSTANT(0), WORK(1, 1), END, END};
static const uint8_t stride_0[] = {LOOP(0, 0, 0), CONSTANT(9), CONSTANT(0), END};
static const uint8_t stride_below[] = {LOOP(0, 0, -1001), CONSTANT(9), CONSTANT(0), END};
static const uint8_t too_large_skip[] = {SKIP_LOOP(5, 1, 1), CONSTANT(0), CONSTANT(-1), SKIP(4096), END};
static const uint8_t kind_7[] = {7};
static const uint8_t least_above_most[] = {WORK(5, 3)};
#define WORKS_64 EIGHT_TIMES(EIGHT_TIMES(WORK(1, 2)))
static const uint8_t works_65[] = {WORKS_64, WORK(1, 2)};
static const uint8_t works_128[] = {WORKS_64, WORKS_64};
static const uint8_t records_129[] = {EIGHT_TIMES(EIGHT_TIMES(CHOICE, END)), CHOICE};
/* 128 records too: four loops of 2,048 trips, 2^44 in all, over 8 times 15 works. The most is above 2^62. */
#define TRIPS_2048 LOOP(0, 0, 1), CONSTANT(0), CONSTANT(2047)
#define LONG_WORK WORK(1, 4095)
static const uint8_t long_and_deep[] = {
    TRIPS_2048, TRIPS_2048, TRIPS_2048, TRIPS_2048,
    EIGHT_TIMES(EIGHT_TIMES(LONG_WORK), TWICE(TWICE(LONG_WORK)), TWICE(LONG_WORK), LONG_WORK),
    END, END, END, END};

struct call {
    const char *tells;
    const uint8_t *sheet;
    size_t sheet_length;
    int16_t p1;
    uint32_t budget;
    size_t area_length;
    uint32_t number;     /* what the call returns */
    uint64_t figures[3]; /* least, most, visits where it returns 0 */
};

#define WHOLE(sheet) sheet, sizeof sheet
#define AREA PUMDALIN_AREA_LENGTH

static const struct call calls[] = {
    {"empty sheet", costs, 0, 0, 100, AREA, 0, {0, 0, 0}},
    {"start 2, step 1, i 0 to 9, work 3 to 5", WHOLE(costs), 0, 100, AREA, 0, {42, 62, 1}},
    {"i 0 to 9, j 0 to i - 1", WHOLE(triangle), 0, 100, AREA, 0, {45, 45, 3}},
    {"i 1 to 7, j i to 2", WHOLE(partly_empty), 0, 100, AREA, 0, {3, 3, 9}},
    {"i 0 to 9, j 0 to i by 2", WHOLE(uneven), 0, 100, AREA, 0, {30, 30, 20}},
    {"i 0 to 18 by 2, j 0 to i by 2", WHOLE(even), 0, 100, AREA, 0, {55, 55, 4}},
    {"i 0 to 9, j i to 10, k i - 3 to j + 7", WHOLE(three_deep), 0, 100, AREA, 0, {935, 935, 15}},
    {"i 1 to N, j i to N, N 100", WHOLE(parameter), 100, 100, AREA, 0, {5050, 5050, 4}},
    {"i 1 to N, j i to N, N 0", WHOLE(parameter), 0, 100, AREA, 0, {0, 0, 0}},
    {"a choice of j 0 to i - 1 and work 4", WHOLE(loop_in_arm), 0, 100, AREA, 0, {30, 55, 19}},
    {"i 0 to -1 by 3", WHOLE(no_trip), 0, 100, AREA, 0, {0, 0, 0}},
    {"i 0 to 2,047", WHOLE(longest_loop), 0, 100, AREA, 0, {2048, 2048, 1}},
    {"start 5, skip 2, i 0 to -1", WHOLE(skipped), 0, 100, AREA, 0, {2, 2, 0}},
    {"i 0 to 9, j 0 to i - 1 with start 4, skip 1", WHOLE(first_skipped), 0, 100, AREA, 0, {82, 82, 19}},
    {"i N to 1 by -1, j i to 1 by -1, work 4 to 7, N 16", WHOLE(flush), 16, 100, AREA, 0, {544, 952, 4}},
    {"i N to 1 by -1, j i to 1 by -1, work 4 to 7, N 0", WHOLE(flush), 0, 100, AREA, 0, {0, 0, 0}},
    {"i 9 to 0 by -1, j i to 0 by -2", WHOLE(uneven_down), 0, 100, AREA, 0, {30, 30, 20}},
    {"20 visits, budget 20", WHOLE(uneven), 0, 20, AREA, 0, {30, 30, 20}},
    {"65 works of 1 to 2", WHOLE(works_65), 0, 100, AREA, 0, {65, 130, 0}},
    {"128 works of 1 to 2", WHOLE(works_128), 0, 100, AREA, 0, {128, 256, 0}},
    {"2^44 trips over 120 works of 1 to 4,095", WHOLE(long_and_deep), 0, 100, AREA, 0,
     {(uint64_t)120 << 44, (uint64_t)(120 * 4095) << 44, 64}},
    {"an area of 32 bytes", WHOLE(costs), 0, 100, AREA + 8, 0, {42, 62, 1}},
    {"a loop cut off", triangle, 20, 0, 100, AREA, PUMDALIN_CUT_OFF, {0}},
    {"a loop with a skip, cut off", skipped, 26, 0, 100, AREA, PUMDALIN_CUT_OFF, {0}},
    {"kind 7", WHOLE(kind_7), 0, 100, AREA, PUMDALIN_NO_SUCH_KIND, {0}},
    {"a skip of 4,096", WHOLE(too_large_skip), 0, 100, AREA, PUMDALIN_FIELD, {0}},
    {"a stride of 0", WHOLE(stride_0), 0, 100, AREA, PUMDALIN_FIELD, {0}},
    {"a stride of -1,001", WHOLE(stride_below), 0, 100, AREA, PUMDALIN_FIELD, {0}},
    {"a least above its most", WHOLE(least_above_most), 0, 100, AREA, PUMDALIN_FIELD, {0}},
    {"129 records", WHOLE(records_129), 0, 100, AREA, PUMDALIN_TOO_MANY_RECORDS, {0}},
    {"a loop left open", costs, sizeof costs - 1, 0, 100, AREA, PUMDALIN_NESTING, {0}},
    {"i 0 to 2,048", WHOLE(too_long_loop), 0, 100, AREA, PUMDALIN_CEILING, {0}},
    {"budget 0", WHOLE(costs), 0, 0, AREA, PUMDALIN_BUDGET, {0}},
    {"budget 1,000,001", WHOLE(costs), 0, 1000001, AREA, PUMDALIN_BUDGET, {0}},
    {"20 visits, budget 19", WHOLE(uneven), 0, 19, AREA, PUMDALIN_VISITS, {0}},
    {"an area of 23 bytes", WHOLE(costs), 0, 100, AREA - 1, PUMDALIN_AREA, {0}},
    {"no area", WHOLE(costs), 0, 100, 0, PUMDALIN_AREA, {0}},
};

/* A byte of the area as it has to be after the call. */
static uint8_t expected_byte(const struct call *call, size_t at)
{
    if (call->number != PUMDALIN_ANSWERED || at >= PUMDALIN_AREA_LENGTH)
        return GUARD_FILL;
    return BYTE(call->figures[at / 8] >> at % 8 * 8);
}

static int area_as_expected(const struct call *call, const struct guarded *area)
{
    for (const uint8_t *before = area->page; before < area->bytes; before++)
        if (*before != GUARD_FILL)
            return 0;
    for (size_t i = 0; i < area->length; i++)
        if (area->bytes[i] != expected_byte(call, i))
            return 0;
    return 1;
}

static void print_answer(uint32_t number, const uint8_t *area)
{
    if (number == PUMDALIN_ANSWERED)
        printf("best %llu worst %llu visits %llu\n", (unsigned long long)pumdalin_least(area),
               (unsigned long long)pumdalin_most(area), (unsigned long long)pumdalin_visits(area));
    else
        printf("refused %lu: %s\n", (unsigned long)number, pumdalin_words(number));
}

static int made_as_expected(const struct call *call)
{
    struct guarded sheet = guarded_read_only_copy(call->sheet, call->sheet_length);
    struct guarded area = guarded_bytes(call->area_length);
    uint32_t number = pumdalin_figures(sheet.bytes, sheet.length, call->p1, 0, 0, 0, call->budget,
                                       area.bytes, area.length);
    int good = number == call->number && area_as_expected(call, &area);

    printf("%s %s: ", good ? "good " : "WRONG", call->tells);
    print_answer(number, area.bytes);
    guarded_release(&sheet);
    guarded_release(&area);
    return good;
}

int main(void)
{
    size_t count = sizeof calls / sizeof calls[0], good = 0;

    for (size_t i = 0; i < count; i++)
        good += (size_t)made_as_expected(&calls[i]);
    printf("%lu of %lu calls as expected\n", (unsigned long)good, (unsigned long)count);
    return good == count ? 0 : 1;
}
