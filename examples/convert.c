/* Calls pumdalin_with_skips and pumdalin_without_skips from C: sheets converted to loops of kind 6, to loops of kind 2, there and
 * back, and every refusal in its order. A wrong number or a wrong byte makes the exit status 1; the sheet lies in read-only
 * memory, and a byte read or written past the end of what is lent ends the program. */
#define _DEFAULT_SOURCE /* for MAP_ANONYMOUS */

#include <pumdalin.h>

#include "checks.h"
#include "guarded.h"
#include "records.h"

/* A work, and a nest of two loops with a choice in it: with loops of kind 2, with one of each kind, and with loops of kind 6. */
#define CHOICE_OF_WORK CHOICE, WORK(2, 2), NEXT_ARM, END
static const uint8_t kind_2[] = {
    WORK(3, 5), LOOP(4, 1, 1), CONSTANT(0), CONSTANT(9), CHOICE_OF_WORK,
    LOOP(7, 0, 2), INDEX_I(0), PARAMETER_1, END, END};
static const uint8_t both_kinds[] = {
    WORK(3, 5), LOOP(4, 1, 1), CONSTANT(0), CONSTANT(9), CHOICE_OF_WORK,
    SKIP_LOOP(7, 0, 2), INDEX_I(0), PARAMETER_1, SKIP(7), END, END};
static const uint8_t kind_6[] = {
    WORK(3, 5), SKIP_LOOP(4, 1, 1), CONSTANT(0), CONSTANT(9), SKIP(4), CHOICE_OF_WORK,
    SKIP_LOOP(7, 0, 2), INDEX_I(0), PARAMETER_1, SKIP(7), END, END};
/* A loop that counts down, of either kind: the stride keeps its sign. */
static const uint8_t down_2[] = {LOOP(4, 1, -1), PARAMETER_1, CONSTANT(1), WORK(3, 5), END};
static const uint8_t down_6[] = {SKIP_LOOP(4, 1, -1), PARAMETER_1, CONSTANT(1), SKIP(4), WORK(3, 5), END};
/* Of the nest with kind 6, what kind 2 can't say: the inner loop has another skip than its start. */
static const uint8_t other_skip[] = {
    WORK(3, 5), SKIP_LOOP(4, 1, 1), CONSTANT(0), CONSTANT(9), SKIP(4), CHOICE_OF_WORK,
    SKIP_LOOP(7, 0, 2), INDEX_I(0), PARAMETER_1, SKIP(2), END, END};
static const uint8_t kind_7[] = {SKIP_LOOP(4, 1, 1), CONSTANT(0), CONSTANT(9), SKIP(2), END, 7};
static const uint8_t too_large_skip[] = {SKIP_LOOP(4, 1, 1), CONSTANT(0), CONSTANT(9), SKIP(4096), END};
/* A loop of either kind around nothing. */
#define EMPTY_LOOP LOOP(4, 1, 1), CONSTANT(0), CONSTANT(9), END
#define EMPTY_SKIP_LOOP SKIP_LOOP(4, 1, 1), CONSTANT(0), CONSTANT(9), SKIP(4), END
/* A work and 32 loops, each with its end: 65 records. */
static const uint8_t records_65[] = {WORK(3, 5), TWICE(TWICE(EIGHT_TIMES(EMPTY_LOOP)))};
static const uint8_t skips_65[] = {WORK(3, 5), TWICE(TWICE(EIGHT_TIMES(EMPTY_SKIP_LOOP)))};
/* 64 loops, the most that a sheet can have, in a new sheet of 1,792 bytes. */
static const uint8_t most_loops[] = {EIGHT_TIMES(EIGHT_TIMES(EMPTY_LOOP))};
static const uint8_t most_skips[] = {EIGHT_TIMES(EIGHT_TIMES(EMPTY_SKIP_LOOP))};
static const uint8_t records_129[] = {EIGHT_TIMES(EIGHT_TIMES(CHOICE, END)), CHOICE};

typedef uint32_t converter(const uint8_t *, size_t, uint8_t *, size_t, uint8_t *, size_t);

struct call {
    const char *tells;
    converter *convert;
    const uint8_t *sheet;
    size_t sheet_length;
    size_t room;
    size_t area_length;
    uint32_t number;     /* what the call returns */
    const uint8_t *made; /* the new sheet where it returns 0 */
    size_t made_length;
};

#define TO_6 pumdalin_with_skips
#define TO_2 pumdalin_without_skips
#define WHOLE(sheet) sheet, sizeof sheet
#define ROOM PUMDALIN_SHEET_LENGTH
#define AREA PUMDALIN_LENGTH_AREA_LENGTH
#define NOTHING NULL, 0

static const struct call calls[] = {
    {"kind 2 to 6", TO_6, WHOLE(kind_2), sizeof kind_6, AREA, 0, WHOLE(kind_6)},
    {"both kinds to 6", TO_6, WHOLE(both_kinds), ROOM, AREA + 3, 0, WHOLE(kind_6)},
    {"kind 6 to 6", TO_6, WHOLE(kind_6), ROOM, AREA, 0, WHOLE(kind_6)},
    {"another skip to 6", TO_6, WHOLE(other_skip), ROOM, AREA, 0, WHOLE(other_skip)},
    {"kind 6 to 2", TO_2, WHOLE(kind_6), sizeof kind_2, AREA, 0, WHOLE(kind_2)},
    {"both kinds to 2", TO_2, WHOLE(both_kinds), ROOM, AREA, 0, WHOLE(kind_2)},
    {"kind 2 to 2", TO_2, WHOLE(kind_2), ROOM, AREA, 0, WHOLE(kind_2)},
    {"counting down, to 6", TO_6, WHOLE(down_2), ROOM, AREA, 0, WHOLE(down_6)},
    {"counting down, to 2", TO_2, WHOLE(down_6), ROOM, AREA, 0, WHOLE(down_2)},
    {"65 records to 6", TO_6, WHOLE(records_65), sizeof skips_65, AREA, 0, WHOLE(skips_65)},
    {"65 records to 2", TO_2, WHOLE(skips_65), ROOM, AREA, 0, WHOLE(records_65)},
    {"most loops to 6", TO_6, WHOLE(most_loops), sizeof most_skips, AREA, 0, WHOLE(most_skips)},
    {"most loops to 2", TO_2, WHOLE(most_skips), sizeof most_loops, AREA, 0, WHOLE(most_loops)},
    {"empty sheet to 6, no room", TO_6, kind_2, 0, 0, AREA, 0, kind_2, 0},
    {"empty sheet to 2, no room", TO_2, kind_2, 0, 0, AREA, 0, kind_2, 0},
    {"a loop cut off, to 6", TO_6, kind_2, 29, ROOM, AREA, PUMDALIN_CUT_OFF, NOTHING},
    {"a skip cut off, to 2", TO_2, kind_6, 31, ROOM, AREA, PUMDALIN_CUT_OFF, NOTHING},
    {"kind 7", TO_6, WHOLE(kind_7), ROOM, AREA, PUMDALIN_NO_SUCH_KIND, NOTHING},
    {"kind 7 before another skip's 10", TO_2, WHOLE(kind_7), ROOM, AREA, PUMDALIN_NO_SUCH_KIND, NOTHING},
    {"a skip of 4,096", TO_6, WHOLE(too_large_skip), ROOM, AREA, PUMDALIN_FIELD, NOTHING},
    {"129 records, neither room nor area", TO_6, WHOLE(records_129), 0, 0, PUMDALIN_TOO_MANY_RECORDS, NOTHING},
    {"a loop left open, neither room nor area", TO_2, kind_2, sizeof kind_2 - 1, 0, 0, PUMDALIN_NESTING, NOTHING},
    {"another skip to 2", TO_2, WHOLE(other_skip), ROOM, AREA, PUMDALIN_SKIP, NOTHING},
    {"another skip to 2, neither room nor area", TO_2, WHOLE(other_skip), 0, 0, PUMDALIN_SKIP, NOTHING},
    {"a byte too little room, to 6", TO_6, WHOLE(kind_2), sizeof kind_6 - 1, AREA, PUMDALIN_AREA, NOTHING},
    {"a byte too little room, to 2", TO_2, WHOLE(kind_6), sizeof kind_2 - 1, AREA, PUMDALIN_AREA, NOTHING},
    {"an area of 7 bytes", TO_6, WHOLE(kind_2), ROOM, AREA - 1, PUMDALIN_AREA, NOTHING},
    {"no area", TO_2, WHOLE(kind_6), ROOM, 0, PUMDALIN_AREA, NOTHING},
};

static int left_as_expected(const struct call *call, const struct guarded *new_sheet, const struct guarded *area)
{
    if (call->number != PUMDALIN_ANSWERED)
        return guarded_holds_only(new_sheet, NULL, 0) && guarded_holds_only(area, NULL, 0);
    uint8_t length[AREA] = {TWO_BYTES(call->made_length)};
    return guarded_holds_only(new_sheet, call->made, call->made_length) && guarded_holds_only(area, length, AREA);
}

static void check_call(const struct call *call)
{
    struct guarded sheet = guarded_read_only_copy(call->sheet, call->sheet_length);
    struct guarded new_sheet = guarded_bytes(call->room), area = guarded_bytes(call->area_length);
    uint32_t number = call->convert(sheet.bytes, sheet.length, new_sheet.bytes, new_sheet.length, area.bytes, area.length);
    check(number == call->number && left_as_expected(call, &new_sheet, &area), call->tells);
    guarded_release(&sheet);
    guarded_release(&new_sheet);
    guarded_release(&area);
}

/* A null pointer with length 0 is an empty sheet, an empty buffer or an empty area. */
static void check_null_pointers(void)
{
    uint8_t area[AREA];
    memset(area, 1, sizeof area);
    check(TO_6(NULL, 0, NULL, 0, area, sizeof area) == 0 && pumdalin_length(area) == 0, "to 6: neither sheet nor buffer");
    memset(area, 1, sizeof area);
    check(TO_2(NULL, 0, NULL, 0, area, sizeof area) == 0 && pumdalin_length(area) == 0, "to 2: neither sheet nor buffer");
    check(TO_6(NULL, 0, NULL, 0, NULL, 0) == PUMDALIN_AREA && TO_2(NULL, 0, NULL, 0, NULL, 0) == PUMDALIN_AREA, "nothing");
    check(TO_6(WHOLE(kind_2), NULL, 0, area, sizeof area) == PUMDALIN_AREA, "to 6: no buffer");
    check(TO_2(WHOLE(kind_6), NULL, 0, area, sizeof area) == PUMDALIN_AREA, "to 2: no buffer");
}

/* As a host does it: the new sheet's length, or 0 where there is none. */
static size_t converted(converter *convert, const uint8_t *sheet, size_t sheet_length, uint8_t *new_sheet)
{
    uint8_t area[PUMDALIN_LENGTH_AREA_LENGTH];
    uint32_t number = convert(sheet, sheet_length, new_sheet, PUMDALIN_SHEET_LENGTH, area, sizeof area);
    if (number != PUMDALIN_ANSWERED) {
        printf("      refused %lu: %s\n", (unsigned long)number, pumdalin_words(number));
        return 0;
    }
    return (size_t)pumdalin_length(area);
}

/* The most cycles with p1 = 9; 0 where the sheet is refused. */
static uint64_t most_cycles(const uint8_t *sheet, size_t sheet_length)
{
    uint8_t area[PUMDALIN_AREA_LENGTH];
    return pumdalin_figures(sheet, sheet_length, 9, 0, 0, 0, 100, area, sizeof area) == 0 ? pumdalin_most(area) : 0;
}

/* A sheet without kind 6, to kind 6 and back: the same figures on the way, and the same bytes in the end. */
static void check_there_and_back(void)
{
    uint8_t with_skips[PUMDALIN_SHEET_LENGTH], back[PUMDALIN_SHEET_LENGTH];
    size_t length = converted(TO_6, WHOLE(kind_2), with_skips);
    check(length == sizeof kind_6 && most_cycles(with_skips, length) == most_cycles(WHOLE(kind_2)), "there: the same figures");
    size_t old_length = converted(TO_2, with_skips, length, back);
    check(old_length == sizeof kind_2 && memcmp(back, kind_2, old_length) == 0, "and back: the same bytes");
    check(converted(TO_2, WHOLE(other_skip), back) == 0 && memcmp(back, kind_2, old_length) == 0, "not back: nothing written");
}

int main(void)
{
    for (size_t i = 0; i < sizeof calls / sizeof calls[0]; i++)
        check_call(&calls[i]);
    check_null_pointers();
    check_there_and_back();
    return checks_end();
}
