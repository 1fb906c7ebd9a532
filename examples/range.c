/* Calls pumdalin_range from C: whether a tick holds for every number of colorants, then ranges of each parameter, every refusal
 * in its order, null pointers of length 0, and the functions that the header has for it. A wrong number or a wrong byte makes
 * the exit status 1; the sheet lies in read-only memory, and a byte read or written past the end of sheet or area ends the
 * program. */
#define _DEFAULT_SOURCE /* for MAP_ANONYMOUS */

#include <pumdalin.h>

#include "checks.h"
#include "guarded.h"
#include "records.h"

/* dispense.listing: n colorants, which are parameter 1, take n trips with n (n + 1) / 2 pulses in all. One colorant takes 2
 * visits, more take 4. */
static const uint8_t dispense[] = {
    WORK(12, 15), LOOP(2, 3, 1), CONSTANT(1), PARAMETER_1,
    WORK(6, 6), LOOP(2, 2, 1), INDEX_I(0), PARAMETER_1, WORK(4, 7), END,
    CHOICE, WORK(20, 35), NEXT_ARM, WORK(3, 3), END, END};
#define PULSES(n) ((n) * ((n) + 1) / 2)
#define DISPENSE_LEAST(n) (12 + 2 + (n) * (6 + 2 + 3 + 3) + PULSES(n) * (4 + 2))
#define DISPENSE_MOST(n) (15 + 2 + (n) * (6 + 2 + 35 + 3) + PULSES(n) * (7 + 2))
/* A valve turned by N notches, one way below 0 and the other way above. It takes a visit unless N is 0. */
static const uint8_t either_way[] = {
    LOOP(0, 0, 1), PARAMETER_1, CONSTANT(-1), WORK(1, 2), END,
    LOOP(0, 0, 1), CONSTANT(1), PARAMETER_1, WORK(1, 2), END};
/* p1 + 2 p2 + 4 p3 - p4 trips of one cycle each. */
static const uint8_t all_parameters[] = {LOOP(0, 0, 1), CONSTANT(1), PARAMETERS(1, 2, 4, -1), WORK(1, 1), END};
/* As many trips as N says, none below 1; and as many as there are from N to the largest parameter. */
static const uint8_t up_to[] = {LOOP(0, 0, 1), CONSTANT(1), PARAMETER_1, WORK(1, 1), END};
static const uint8_t up_from[] = {LOOP(0, 0, 1), PARAMETER_1, CONSTANT(32767), WORK(1, 1), END};
static const uint8_t kind_7[] = {7};
static const uint8_t least_above_most[] = {WORK(5, 3)};
static const uint8_t records_129[] = {EIGHT_TIMES(EIGHT_TIMES(CHOICE, END)), CHOICE};

struct call {
    const char *tells;
    const uint8_t *sheet;
    size_t sheet_length;
    int16_t parameters[4];
    uint32_t budget;
    uint32_t parameter; /* its number */
    int16_t first, last;
    size_t area_length;
    uint32_t number;  /* what the call returns */
    int64_t found[5]; /* what it stores where it returns 0: least, at, most, at, visits */
};

#define WHOLE(sheet) sheet, sizeof sheet
#define AREA PUMDALIN_RANGE_AREA_LENGTH
#define FIXED {8, 4, 2, 1} /* with these the third sheet makes 8 + 8 + 8 - 1 trips */

static const struct call calls[] = {
    {"dispense, 1 to 16 colorants", WHOLE(dispense), {0}, 100, 1, 1, 16, AREA, 0,
     {DISPENSE_LEAST(1), 1, DISPENSE_MOST(16), 16, 2 + 15 * 4}},
    {"62 visits, budget 62", WHOLE(dispense), {0}, 62, 1, 1, 16, AREA, 0,
     {DISPENSE_LEAST(1), 1, DISPENSE_MOST(16), 16, 62}},
    {"one value", WHOLE(dispense), {0}, 100, 1, 16, 16, AREA, 0, {DISPENSE_LEAST(16), 16, DISPENSE_MOST(16), 16, 4}},
    {"-3 to 2 colorants", WHOLE(dispense), {0}, 100, 1, -3, 2, AREA, 0,
     {DISPENSE_LEAST(0), -3, DISPENSE_MOST(2), 2, 2 + 4}},
    {"30,000 for the parameter with the range", WHOLE(dispense), {30000}, 100, 1, 1, 2, AREA, 0,
     {DISPENSE_LEAST(1), 1, DISPENSE_MOST(2), 2, 2 + 4}},
    {"a least between the ends, the most at both", WHOLE(either_way), {0}, 100, 1, -3, 3, AREA, 0, {0, 0, 6, -3, 6}},
    {"the same at every value", WHOLE(dispense), {5}, 100, 4, -2, 2, AREA, 0,
     {DISPENSE_LEAST(5), -2, DISPENSE_MOST(5), -2, 5 * 4}},
    {"parameter 1", WHOLE(all_parameters), FIXED, 100, 1, 1, 3, AREA, 0, {16, 1, 18, 3, 3}},
    {"parameter 2", WHOLE(all_parameters), FIXED, 100, 2, 1, 3, AREA, 0, {17, 1, 21, 3, 3}},
    {"parameter 3", WHOLE(all_parameters), FIXED, 100, 3, 1, 3, AREA, 0, {19, 1, 27, 3, 3}},
    {"parameter 4, with which the figures fall", WHOLE(all_parameters), FIXED, 100, 4, 1, 3, AREA, 0, {21, 3, 23, 1, 3}},
    {"256 values", WHOLE(up_to), {0}, 127, 1, -128, 127, AREA, 0, {0, -128, 127, 127, 127}},
    {"the smallest values", WHOLE(up_to), {0}, 1, 1, -32768, -32513, AREA, 0, {0, -32768, 0, -32768, 0}},
    {"the largest values", WHOLE(up_from), {0}, 256, 1, 32512, 32767, AREA, 0, {1, 32767, 256, 32512, 256}},
    {"empty sheet", dispense, 0, {0}, 1, 3, 5, 9, AREA, 0, {0, 5, 0, 5, 0}},
    {"an area of 48 bytes", WHOLE(up_to), {0}, 100, 1, 1, 3, AREA + 8, 0, {1, 1, 3, 3, 3}},
    {"an area of 39 bytes", WHOLE(up_to), {0}, 100, 1, 1, 3, AREA - 1, PUMDALIN_AREA, {0}},
    {"no area, before 11", WHOLE(up_to), {0}, 0, 5, 1, 3, 0, PUMDALIN_AREA, {0}},
    {"parameter 0", WHOLE(up_to), {0}, 100, 0, 1, 3, AREA, PUMDALIN_RANGE, {0}},
    {"parameter 5", WHOLE(up_to), {0}, 100, 5, 1, 3, AREA, PUMDALIN_RANGE, {0}},
    {"3 to 2", WHOLE(up_to), {0}, 100, 1, 3, 2, AREA, PUMDALIN_RANGE, {0}},
    {"257 values", WHOLE(up_to), {0}, 1000, 1, -128, 128, AREA, PUMDALIN_RANGE, {0}},
    {"all values", WHOLE(up_to), {0}, 1000, 1, -32768, 32767, AREA, PUMDALIN_RANGE, {0}},
    {"all values, from the last to the first", WHOLE(up_to), {0}, 1000, 1, 32767, -32768, AREA, PUMDALIN_RANGE, {0}},
    {"parameter 5, before 7", WHOLE(kind_7), {0}, 0, 5, 1, 3, AREA, PUMDALIN_RANGE, {0}},
    {"budget 0, before 2", WHOLE(kind_7), {0}, 0, 1, 1, 3, AREA, PUMDALIN_BUDGET, {0}},
    {"budget 1,000,001", WHOLE(up_to), {0}, 1000001, 1, 1, 3, AREA, PUMDALIN_BUDGET, {0}},
    {"a loop cut off", up_to, 20, {0}, 100, 1, 1, 3, AREA, PUMDALIN_CUT_OFF, {0}},
    {"kind 7", WHOLE(kind_7), {0}, 100, 1, 1, 3, AREA, PUMDALIN_NO_SUCH_KIND, {0}},
    {"a least above its most", WHOLE(least_above_most), {0}, 100, 1, 1, 3, AREA, PUMDALIN_FIELD, {0}},
    {"129 records", WHOLE(records_129), {0}, 100, 1, 1, 3, AREA, PUMDALIN_TOO_MANY_RECORDS, {0}},
    {"a loop left open", up_to, sizeof up_to - 1, {0}, 100, 1, 1, 3, AREA, PUMDALIN_NESTING, {0}},
    {"2,049 trips at the last value", WHOLE(up_to), {0}, 100, 1, 2047, 2049, AREA, PUMDALIN_CEILING, {0}},
    {"the same with the budget passed before", WHOLE(up_to), {0}, 1, 1, 2047, 2049, AREA, PUMDALIN_CEILING, {0}},
    {"2,048 trips at the last value", WHOLE(up_to), {0}, 2, 1, 2047, 2048, AREA, 0, {2047, 2047, 2048, 2048, 2}},
    {"the same with a budget of 1", WHOLE(up_to), {0}, 1, 1, 2047, 2048, AREA, PUMDALIN_VISITS, {0}},
    {"62 visits, budget 61", WHOLE(dispense), {0}, 61, 1, 1, 16, AREA, PUMDALIN_VISITS, {0}},
};

static int area_as_expected(const struct call *call, const struct guarded *area)
{
    uint8_t found[AREA];
    for (size_t at = 0; at < sizeof found; at++)
        found[at] = BYTE((uint64_t)call->found[at / 8] >> at % 8 * 8);
    return guarded_holds_only(area, found, call->number == PUMDALIN_ANSWERED ? sizeof found : 0);
}

static void check_call(const struct call *call)
{
    struct guarded sheet = guarded_read_only_copy(call->sheet, call->sheet_length);
    struct guarded area = guarded_bytes(call->area_length);
    const int16_t *p = call->parameters;
    uint32_t number = pumdalin_range(sheet.bytes, sheet.length, p[0], p[1], p[2], p[3], call->budget,
                                     call->parameter, call->first, call->last, area.bytes, area.length);
    check(number == call->number && area_as_expected(call, &area), call->tells);
    guarded_release(&sheet);
    guarded_release(&area);
}

/* A null pointer with length 0 is an empty sheet or an empty area. */
static void check_null_pointers(void)
{
    uint8_t area[AREA];
    memset(area, 1, sizeof area);
    check(pumdalin_range(NULL, 0, 0, 0, 0, 0, 1, 2, -1, 1, area, sizeof area) == 0 && pumdalin_range_most(area) == 0
              && pumdalin_range_most_at(area) == -1,
          "no sheet");
    check(pumdalin_range(WHOLE(up_to), 0, 0, 0, 0, 1, 1, 1, 1, NULL, 0) == PUMDALIN_AREA, "a null pointer for the area");
    check(pumdalin_range(NULL, 0, 0, 0, 0, 0, 0, 0, 1, 0, NULL, 0) == PUMDALIN_AREA, "neither sheet nor area");
}

/* As a host does it, for the colorants of dispense.listing. */
static uint32_t range_of_colorants(int64_t p1, int64_t p2, uint32_t parameter, int64_t first, int64_t last, uint8_t *area)
{
    return pumdalin_range_checked(WHOLE(dispense), p1, p2, 0, 0, 100, parameter, first, last, area, AREA);
}

/* The functions of the header. */
static void check_header(void)
{
    uint8_t area[AREA];
    check(range_of_colorants(0, 0, 1, -3, 2, area) == 0 && pumdalin_range_least(area) == DISPENSE_LEAST(0)
              && pumdalin_range_least_at(area) == -3 && pumdalin_range_most(area) == DISPENSE_MOST(2)
              && pumdalin_range_most_at(area) == 2 && pumdalin_range_visits(area) == 6,
          "each number by its name");
    check(range_of_colorants(65536, 0, 1, 1, 2, area) == 0, "65,536 for the parameter with the range");
    memset(area, GUARD_FILL, sizeof area);
    check(range_of_colorants(0, 65536, 1, 1, 2, area) == PUMDALIN_PARAMETER && area[0] == GUARD_FILL, "65,536 for another");
    check(range_of_colorants(65536, 0, 5, 1, 2, area) == PUMDALIN_PARAMETER, "65,536, before 11");
    check(range_of_colorants(0, 0, 1, -32769, 2, area) == PUMDALIN_PARAMETER, "from -32,769");
    check(range_of_colorants(0, 0, 1, 1, 32768, area) == PUMDALIN_PARAMETER, "to 32,768");
    const uint8_t numbers[32] = {
        2, [8] = 0xFE, 0xFF, 0xFF, 0xFF, 0xFF, 0xFF, 0xFF, 0xFF, [23] = 0x80, 0xFF, 0xFF, 0xFF, 0xFF, 0xFF, 0xFF, 0xFF, 0x7F};
    check(pumdalin_signed_number(numbers, 0) == 2 && pumdalin_signed_number(numbers, 1) == -2, "two's complement");
    check(pumdalin_signed_number(numbers, 2) == INT64_MIN && pumdalin_signed_number(numbers, 3) == INT64_MAX, "its ends");
}

struct cycles {
    uint64_t least, most;
};

static struct cycles plus(struct cycles sum, uint64_t least, uint64_t most)
{
    return (struct cycles){sum.least + least, sum.most + most};
}

/* for (int j = i; j <= colorants; j++) pulse(j); trip by trip. */
static struct cycles with_pulses(struct cycles sum, int i, int colorants)
{
    sum = plus(sum, 2, 2);
    for (int j = i; j <= colorants; j++)
        sum = plus(sum, 4 + 2, 7 + 2);
    return sum;
}

/* The code of dispense.listing, trip by trip: it reports at most and counts down at least. */
static struct cycles dispensed(int colorants)
{
    struct cycles sum = {12 + 2, 15 + 2};
    for (int i = 1; i <= colorants; i++)
        sum = plus(with_pulses(plus(sum, 6, 6), i, colorants), 3 + 3, 35 + 3);
    return sum;
}

/* Whether no number of colorants takes less or more than was found, and the values found are the first that take just so. */
static int holds_for_all(int first, int last, const uint8_t *area)
{
    uint64_t least = pumdalin_range_least(area), most = pumdalin_range_most(area);
    int least_at = last + 1, most_at = last + 1;
    for (int colorants = last; colorants >= first; colorants--) {
        struct cycles taken = dispensed(colorants);
        if (taken.least < least || taken.most > most)
            return 0;
        least_at = taken.least == least ? colorants : least_at;
        most_at = taken.most == most ? colorants : most_at;
    }
    return least_at == pumdalin_range_least_at(area) && most_at == pumdalin_range_most_at(area);
}

enum { TICK = 2000 };

/* Whether the valve tick is long enough for recipes of 1 to so many colorants. */
static void check_tick(int last, int fits)
{
    uint8_t area[AREA];
    uint32_t number = range_of_colorants(0, 0, 1, 1, last, area);
    if (number != PUMDALIN_ANSWERED) {
        printf("      refused %lu: %s\n", (unsigned long)number, pumdalin_words(number));
        check(0, "the tick");
        return;
    }
    printf("      1 to %d colorants: from %llu cycles with %d to %llu with %d\n", last,
           (unsigned long long)pumdalin_range_least(area), pumdalin_range_least_at(area),
           (unsigned long long)pumdalin_range_most(area), pumdalin_range_most_at(area));
    check(holds_for_all(1, last, area), "trip by trip the same");
    check((pumdalin_range_most(area) <= TICK) == fits, fits ? "a tick of 2,000 cycles holds for all" : "and here it does not");
}

int main(void)
{
    check_tick(16, 1);
    check_tick(17, 0);
    for (size_t i = 0; i < sizeof calls / sizeof calls[0]; i++)
        check_call(&calls[i]);
    check_null_pointers();
    check_header();
    return checks_end();
}
