/* Calls pumdalin_text from C, both calls with null pointers of length 0, and the functions that the header has. A wrong number
 * or a wrong byte makes the exit status 1; what is only read lies in read-only memory, and a byte read or written past the end
 * of what is lent ends the program. */
#define _DEFAULT_SOURCE /* for MAP_ANONYMOUS */

#include <pumdalin.h>

#include "checks.h"
#include "guarded.h"
#include "records.h"

/* Parameter 1, the others 0; a budget of 100. */
#define ASKED(p1) TWO_BYTES(p1), 0, 0, 0, 0, 0, 0, 100, 0, 0, 0
static const uint8_t one_work[] = {ASKED(0), WORK(3, 5)};
static const uint8_t one_loop[] = {ASKED(2), LOOP(0, 0, 1), CONSTANT(1), PARAMETER_1, WORK(1, 1), END};
static const uint8_t uneven_loops[] = {
    ASKED(0), LOOP(0, 0, 1), CONSTANT(0), CONSTANT(9), LOOP(0, 0, 2), CONSTANT(0), INDEX_I(0), WORK(1, 1), END, END};
static const uint8_t kind_9[] = {ASKED(0), 9};
#define WORKS_64 EIGHT_TIMES(EIGHT_TIMES(WORK(1, 2)))
static const uint8_t works_65[] = {ASKED(0), WORKS_64, WORK(1, 2)};
static const uint8_t works_128[] = {ASKED(0), WORKS_64, WORKS_64};
static const uint8_t works_129[] = {ASKED(0), WORKS_64, WORKS_64, WORK(1, 2)};
/* 64 loops, the most that a sheet can have: 32 nests of two with one trip each, of which the outer is walked. */
enum { NESTS = 32, OUTER_LENGTH = 25, NEST_LENGTH = 52 };
#define NEST LOOP(0, 0, 1), CONSTANT(0), CONSTANT(0), LOOP(0, 0, 2), CONSTANT(0), INDEX_I(0), END, END
static const uint8_t most_loops[] = {ASKED(0), TWICE(TWICE(EIGHT_TIMES(NEST)))};

#define ONE_WORK "best 3 worst 5 visits 0\n"
#define ONE_LOOP "best 2 worst 2 visits 1\nloop 0 closed ceiling 2\n"
#define UNEVEN_LOOPS \
    "best 30 worst 30 visits 20\nloop 0 walked ceiling 10\nloop 25 is uneven in loop 0\nloop 25 closed ceiling 5\n"
#define REFUSED_4 "refused 4 at 640\n"
#define REFUSED_2 "refused 2 at 0\n"
#define REFUSED_1 "refused 1 at 0\n"

struct call {
    const char *tells;
    const uint8_t *input;
    size_t input_length;
    size_t text_length;
    size_t area_length;
    uint32_t number;  /* what the call returns */
    const char *text; /* what it stores where it returns 0 */
};

#define WHOLE(input) input, sizeof input
#define AREA PUMDALIN_LENGTH_AREA_LENGTH
#define LENGTH(text) (sizeof text - 1)

static const struct call calls[] = {
    {"a work", WHOLE(one_work), LENGTH(ONE_WORK), AREA, 0, ONE_WORK},
    {"a loop", WHOLE(one_loop), LENGTH(ONE_LOOP), AREA, 0, ONE_LOOP},
    {"a walked loop, with its reason", WHOLE(uneven_loops), LENGTH(UNEVEN_LOOPS), AREA, 0, UNEVEN_LOOPS},
    {"a longer buffer and a longer area", WHOLE(one_loop), LENGTH(ONE_LOOP) + 5, AREA + 3, 0, ONE_LOOP},
    {"65 records", WHOLE(works_65), 100, AREA, 0, "best 65 worst 130 visits 0\n"},
    {"128 records", WHOLE(works_128), 100, AREA, 0, "best 128 worst 256 visits 0\n"},
    {"129 records", WHOLE(works_129), 100, AREA, 0, REFUSED_4},
    {"a refused sheet", WHOLE(kind_9), 100, AREA, 0, REFUSED_2},
    {"11 bytes of input", one_work, 11, 100, AREA, 0, REFUSED_1},
    {"no input", one_work, 0, 100, AREA, 0, REFUSED_1},
    {"a buffer that is a byte short", WHOLE(one_loop), LENGTH(ONE_LOOP) - 1, AREA, PUMDALIN_TEXT_BUFFER, NULL},
    {"no buffer", WHOLE(one_work), 0, AREA, PUMDALIN_TEXT_BUFFER, NULL},
    {"an area of 7 bytes", WHOLE(one_work), 100, AREA - 1, PUMDALIN_AREA, NULL},
    {"no area", WHOLE(one_work), 100, 0, PUMDALIN_AREA, NULL},
    {"neither buffer nor area", WHOLE(one_work), 0, 0, PUMDALIN_AREA, NULL},
};

static int stored_as_expected(const struct call *call, const struct guarded *text, const struct guarded *area)
{
    if (call->text == NULL)
        return guarded_holds_only(text, NULL, 0) && guarded_holds_only(area, NULL, 0);
    uint8_t length[AREA] = {(uint8_t)strlen(call->text)};
    return guarded_holds_only(text, (const uint8_t *)call->text, strlen(call->text)) && guarded_holds_only(area, length, AREA);
}

static void check_text(const struct call *call)
{
    struct guarded input = guarded_read_only_copy(call->input, call->input_length);
    struct guarded text = guarded_bytes(call->text_length), area = guarded_bytes(call->area_length);
    uint32_t number = pumdalin_text(input.bytes, input.length, text.bytes, text.length, area.bytes, area.length);
    check(number == call->number && stored_as_expected(call, &text, &area), call->tells);
    guarded_release(&input);
    guarded_release(&text);
    guarded_release(&area);
}

/* A text for which PUMDALIN_TEXT_LENGTH is there: with the lines of as many loops as a sheet can have. */
static void check_most_loops(void)
{
    static uint8_t text[PUMDALIN_TEXT_LENGTH];
    static char expected[PUMDALIN_TEXT_LENGTH];
    uint8_t area[AREA];
    size_t length = (size_t)sprintf(expected, "best 0 worst 0 visits %d\n", 2 * NESTS);
    for (int outer = 0; outer < NESTS * NEST_LENGTH; outer += NEST_LENGTH) {
        int inner = outer + OUTER_LENGTH;
        length += (size_t)sprintf(expected + length, "loop %d walked ceiling 1\nloop %d is uneven in loop %d\n"
                                  "loop %d closed ceiling 1\n", outer, inner, outer, inner);
    }
    check(pumdalin_text(WHOLE(most_loops), text, sizeof text, area, sizeof area) == 0
              && pumdalin_length(area) == length && memcmp(text, expected, length) == 0,
          "64 loops");
}

/* A null pointer with length 0 is an empty sheet, an empty input, an empty buffer or an empty area. */
static void check_null_pointers(void)
{
    uint8_t area[PUMDALIN_AREA_LENGTH], text[LENGTH(REFUSED_1)];
    memset(area, 1, sizeof area);
    check(pumdalin_figures(NULL, 0, 0, 0, 0, 0, 1, area, sizeof area) == 0 && pumdalin_least(area) == 0
              && pumdalin_most(area) == 0 && pumdalin_visits(area) == 0,
          "figures: no sheet");
    check(pumdalin_figures(one_work + 12, 5, 0, 0, 0, 0, 1, NULL, 0) == PUMDALIN_AREA, "figures: no area");
    check(pumdalin_figures(NULL, 0, 0, 0, 0, 0, 0, NULL, 0) == PUMDALIN_AREA, "figures: neither");
    check(pumdalin_text(NULL, 0, text, sizeof text, area, sizeof area) == 0 && pumdalin_number(area, 0) == sizeof text
              && memcmp(text, REFUSED_1, sizeof text) == 0,
          "text: no input");
    check(pumdalin_text(WHOLE(one_work), NULL, 0, area, sizeof area) == PUMDALIN_TEXT_BUFFER, "text: no buffer");
    check(pumdalin_text(NULL, 0, NULL, 0, NULL, 0) == PUMDALIN_AREA, "text: nothing");
}

static uint32_t figures_of_loop(int64_t p1, int64_t p4, uint8_t *area)
{
    return pumdalin_figures_checked(one_loop + 12, sizeof one_loop - 12, p1, 0, 0, p4, 10, area, PUMDALIN_AREA_LENGTH);
}

/* The functions of the header. */
static void check_header(void)
{
    uint8_t area[PUMDALIN_AREA_LENGTH];
    check(figures_of_loop(7, 0, area) == 0 && pumdalin_most(area) == 7, "a parameter of 16 bits");
    check(figures_of_loop(-32768, 32767, area) == 0 && pumdalin_most(area) == 0, "the smallest and the largest parameter");
    memset(area, GUARD_FILL, sizeof area);
    check(figures_of_loop(65536, 0, area) == PUMDALIN_PARAMETER && area[0] == GUARD_FILL, "65,536, which has 0 in 16 bits");
    check(figures_of_loop(32768, 0, area) == PUMDALIN_PARAMETER, "32,768");
    check(figures_of_loop(0, -32769, area) == PUMDALIN_PARAMETER, "-32,769");
    check(PUMDALIN_PARAMETER > 16, "the number of the header's own refusal is no call's");
    const uint8_t numbers[16] = {1, 2, 3, 4, 5, 6, 7, 0x80, 0xFF};
    check(pumdalin_number(numbers, 0) == 0x8007060504030201u && pumdalin_number(numbers, 1) == 255, "low byte first");
    for (uint32_t number = 0; number <= PUMDALIN_PARAMETER; number++)
        if (strcmp(pumdalin_words(number), pumdalin_words(1000)) != 0)
            printf("      %lu: %s\n", (unsigned long)number, pumdalin_words(number));
}

int main(void)
{
    for (size_t i = 0; i < sizeof calls / sizeof calls[0]; i++)
        check_text(&calls[i]);
    check_most_loops();
    check_null_pointers();
    check_header();
    return checks_end();
}
