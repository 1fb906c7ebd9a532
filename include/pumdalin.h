/* Pumdalin: least cycles, most cycles and visits of a sheet, at given parameters or over a range of one of them; and sheets
 * converted between the two kinds of loops. The library is for x86-64.
 *
 * Of every function below that is not `static inline`: a call returns 0 or a refusal's number. A refusal writes nothing. What
 * is lent as `const` is only read, and nothing past its length; what is written stands at the start of what is lent, and the
 * bytes after it stay. Nothing that is lent may overlap; a null pointer is allowed where the length is 0. Nothing is allocated
 * or kept between calls, so they are reentrant, and each one ends. How many bytes of stack suffice is said for each. */
#ifndef PUMDALIN_H
#define PUMDALIN_H

#include <stddef.h>
#include <stdint.h>

#define PUMDALIN_VERSION_MAJOR 0
#define PUMDALIN_VERSION_MINOR 2
#define PUMDALIN_VERSION_PATCH 0
#define PUMDALIN_VERSION "0.2.0"

#ifdef __cplusplus
extern "C" {
#endif

/* What a call returns: 0, or why there is no answer. */
enum pumdalin_refusal {
    PUMDALIN_ANSWERED = 0,
    PUMDALIN_CUT_OFF = 1,          /* the sheet ends inside a record */
    PUMDALIN_NO_SUCH_KIND = 2,     /* no kind of record has this number */
    PUMDALIN_FIELD = 3,            /* a field is out of its range */
    PUMDALIN_TOO_MANY_RECORDS = 4, /* more than 128 */
    PUMDALIN_NESTING = 5,          /* a record that may not stand there, or something open at the end */
    PUMDALIN_CEILING = 6,          /* a loop may make more than 2,048 trips at these parameters */
    PUMDALIN_BUDGET = 7,           /* the budget is 0 or above 1,000,000 */
    PUMDALIN_VISITS = 8,           /* the sheet takes more visits than the budget, over a range at all its values together */
    PUMDALIN_AREA = 9,             /* the answer area, or the buffer for a new sheet, is too short */
    PUMDALIN_SKIP = 10,            /* a loop's skip differs from its start: it has no kind 2 */
    PUMDALIN_RANGE = 11,           /* a parameter other than 1 to 4, a first value above the last, or more than 256 values */
    PUMDALIN_TEXT_BUFFER = 12,     /* the buffer is shorter than the text */
    PUMDALIN_PARAMETER = 100       /* a parameter, or an end of its range, does not fit 16 bits; only the `_checked` functions return it */
};

enum {
    PUMDALIN_AREA_LENGTH = 24,       /* bytes of the area that takes figures */
    PUMDALIN_RANGE_AREA_LENGTH = 40, /* bytes of the area that takes what pumdalin_range finds */
    PUMDALIN_LENGTH_AREA_LENGTH = 8, /* bytes of the area that takes the length of a text or of a sheet */
    PUMDALIN_SHEET_LENGTH = 3456,    /* bytes that hold every sheet: 128 records of at most 27 */
    PUMDALIN_TEXT_LENGTH = 8209,     /* bytes that hold every text of pumdalin_text */
    /* bytes of stack that suffice for each call */
    PUMDALIN_FIGURES_STACK = 20000,
    PUMDALIN_RANGE_STACK = 25000,
    PUMDALIN_TEXT_STACK = 40000,
    PUMDALIN_WITH_SKIPS_STACK = 10000,
    PUMDALIN_WITHOUT_SKIPS_STACK = 10000
};

/* Stores least, most and visits, 8 bytes each, low byte first, in the first 24 bytes of the area; each is below 2^63. 9 comes
 * before every other refusal, 7 before 1 to 6, these before 8. It works through at most budget + 1 visits, each of which passes
 * at most 128 records. Visits are few where loops are closed, or ranked and settled by their first trips; all other loops take
 * a visit for each of their trips. The figures do not depend on that. */
uint32_t pumdalin_figures(const uint8_t *sheet, size_t sheet_length,
                          int16_t p1, int16_t p2, int16_t p3, int16_t p4,
                          uint32_t budget,
                          uint8_t *answer, size_t answer_length);

/* Stores the smallest least and the largest most over the values from first to last of the parameter with this number, 1 to 4,
 * each followed by the smallest value that gives it, and the visits at all values added up: 8 bytes each, low byte first,
 * values in two's complement, in the first 40 bytes of the area. The other parameters are as given; what is given for that one
 * is not looked at. 9 comes before every other refusal, 11 before 7, 7 before 1 to 6, of which the first value that has one
 * decides, these before 8: one budget covers the visits at all values. It works through at most budget + 1 visits and, once the
 * budget is spent, at most two at each value that is left, since it may still be refused 6. */
uint32_t pumdalin_range(const uint8_t *sheet, size_t sheet_length,
                        int16_t p1, int16_t p2, int16_t p3, int16_t p4,
                        uint32_t budget,
                        uint32_t number, int16_t first, int16_t last,
                        uint8_t *answer, size_t answer_length);

/* Stores what the program `bound` prints for this input: four parameters of 2 bytes each, a budget of 4 bytes, and the sheet,
 * low bytes first. The text goes into the buffer, its length, 8 bytes, low byte first, into the area. It has a line with the
 * figures, at most 81 bytes; then for each loop, of which there are at most 64, a line of at most 62 that says whether it is
 * closed, ranked or walked and, after that of a ranked or walked loop, a line of at most 65 that says why it is not closed. A
 * refusal of the sheet is text too: the call itself refuses 9 for an area of under 8 bytes, and then 12 for a buffer that is
 * shorter than the text. */
uint32_t pumdalin_text(const uint8_t *input, size_t input_length,
                       uint8_t *text, size_t text_length,
                       uint8_t *answer, size_t answer_length);

/* Stores the sheet with each loop of kind 2 made one of kind 6, whose skip is its start; every other record stays as it is.
 * The new sheet goes into the buffer, its length, 8 bytes, low byte first, into the area. Figures and visits are those of the
 * old sheet at the same parameters and budget. Refused are, in this order, 1 to 5 for the sheet, and 9 for an area of under 8
 * bytes or a buffer that is shorter than the new sheet. */
uint32_t pumdalin_with_skips(const uint8_t *sheet, size_t sheet_length,
                             uint8_t *sheet_out, size_t sheet_out_length,
                             uint8_t *answer, size_t answer_length);

/* The way back, for programs that know no kind 6: each loop of kind 6 is made one of kind 2. After 1 to 5 and before 9 it is
 * refused 10 where a loop's skip differs from its start. What pumdalin_with_skips made of a sheet without kind 6 becomes that
 * sheet again. Both calls keep each loop's stride with its sign, and all records; programs that know no negative stride refuse
 * it with 3, and those that know sheets of at most 64 records a longer one with 4. */
uint32_t pumdalin_without_skips(const uint8_t *sheet, size_t sheet_length,
                                uint8_t *sheet_out, size_t sheet_out_length,
                                uint8_t *answer, size_t answer_length);

/* The number of 8 bytes with this index in an answer area. */
static inline uint64_t pumdalin_number(const uint8_t *answer, size_t index)
{
    uint64_t number = 0;
    size_t at = 8;
    while (at-- > 0)
        number = number << 8 | answer[8 * index + at];
    return number;
}

/* The same of a number in two's complement, with no conversion that C leaves to the compiler. */
static inline int64_t pumdalin_signed_number(const uint8_t *answer, size_t index)
{
    uint64_t number = pumdalin_number(answer, index);
    return number <= INT64_MAX ? (int64_t)number : -(int64_t)~number - 1;
}

/* The figures that an area holds after pumdalin_figures returned 0. */
static inline uint64_t pumdalin_least(const uint8_t *answer)
{
    return pumdalin_number(answer, 0);
}

static inline uint64_t pumdalin_most(const uint8_t *answer)
{
    return pumdalin_number(answer, 1);
}

static inline uint64_t pumdalin_visits(const uint8_t *answer)
{
    return pumdalin_number(answer, 2);
}

/* What an area holds after pumdalin_range returned 0: the smallest least and the largest most, each with the smallest value of
 * the parameter that has it, and the visits at all values added up. */
static inline uint64_t pumdalin_range_least(const uint8_t *answer)
{
    return pumdalin_number(answer, 0);
}

static inline int16_t pumdalin_range_least_at(const uint8_t *answer)
{
    return (int16_t)pumdalin_signed_number(answer, 1);
}

static inline uint64_t pumdalin_range_most(const uint8_t *answer)
{
    return pumdalin_number(answer, 2);
}

static inline int16_t pumdalin_range_most_at(const uint8_t *answer)
{
    return (int16_t)pumdalin_signed_number(answer, 3);
}

static inline uint64_t pumdalin_range_visits(const uint8_t *answer)
{
    return pumdalin_number(answer, 4);
}

/* The length that an area holds after pumdalin_text, pumdalin_with_skips or pumdalin_without_skips returned 0. */
static inline uint64_t pumdalin_length(const uint8_t *answer)
{
    return pumdalin_number(answer, 0);
}

/* What a call returned, in words. */
static inline const char *pumdalin_words(uint32_t number)
{
    switch (number) {
    case PUMDALIN_ANSWERED: return "answered";
    case PUMDALIN_CUT_OFF: return "the sheet ends inside a record";
    case PUMDALIN_NO_SUCH_KIND: return "no kind of record has this number";
    case PUMDALIN_FIELD: return "a field of a record is out of its range";
    case PUMDALIN_TOO_MANY_RECORDS: return "the sheet has more than 128 records";
    case PUMDALIN_NESTING: return "a record may not stand where it does, or something is open at the sheet's end";
    case PUMDALIN_CEILING: return "a loop may make more than 2,048 trips at these parameters";
    case PUMDALIN_BUDGET: return "the budget is 0 or above 1,000,000";
    case PUMDALIN_VISITS: return "the sheet takes more visits than the budget, over a range at all its values together";
    case PUMDALIN_AREA: return "the answer area, or the buffer for a new sheet, is too short";
    case PUMDALIN_SKIP: return "a loop's skip differs from its start, so that it has no kind 2";
    case PUMDALIN_RANGE: return "a parameter other than 1 to 4, a first value above the last, or more than 256 values";
    case PUMDALIN_TEXT_BUFFER: return "the buffer is shorter than the text";
    case PUMDALIN_PARAMETER: return "a parameter, or an end of its range, does not fit 16 bits";
    default: return "no number that a call returns";
    }
}

/* Whether a parameter keeps its value in 16 bits. */
static inline int pumdalin_is_parameter(int64_t value)
{
    return INT16_MIN <= value && value <= INT16_MAX;
}

static inline int pumdalin_are_parameters(int64_t p1, int64_t p2, int64_t p3, int64_t p4)
{
    return pumdalin_is_parameter(p1) && pumdalin_is_parameter(p2) && pumdalin_is_parameter(p3) && pumdalin_is_parameter(p4);
}

/* pumdalin_figures for parameters that are held as signed numbers of up to 64 bits: one outside 16 bits, which C would cut to
 * another value for the call itself, is refused with PUMDALIN_PARAMETER before anything else. */
static inline uint32_t pumdalin_figures_checked(const uint8_t *sheet, size_t sheet_length,
                                                int64_t p1, int64_t p2, int64_t p3, int64_t p4,
                                                uint32_t budget,
                                                uint8_t *answer, size_t answer_length)
{
    if (!pumdalin_are_parameters(p1, p2, p3, p4))
        return PUMDALIN_PARAMETER;
    return pumdalin_figures(sheet, sheet_length, (int16_t)p1, (int16_t)p2, (int16_t)p3, (int16_t)p4, budget,
                            answer, answer_length);
}

/* pumdalin_range in the same way: the other parameters and both ends of the range have to keep their values in 16 bits. What is
 * given for the parameter with this number is not looked at. */
static inline uint32_t pumdalin_range_checked(const uint8_t *sheet, size_t sheet_length,
                                              int64_t p1, int64_t p2, int64_t p3, int64_t p4,
                                              uint32_t budget,
                                              uint32_t number, int64_t first, int64_t last,
                                              uint8_t *answer, size_t answer_length)
{
    int64_t fixed[4] = {p1, p2, p3, p4};
    if (1 <= number && number <= 4)
        fixed[number - 1] = 0;
    if (!pumdalin_are_parameters(fixed[0], fixed[1], fixed[2], fixed[3]) || !pumdalin_is_parameter(first)
        || !pumdalin_is_parameter(last))
        return PUMDALIN_PARAMETER;
    return pumdalin_range(sheet, sheet_length, (int16_t)fixed[0], (int16_t)fixed[1], (int16_t)fixed[2], (int16_t)fixed[3],
                          budget, number, (int16_t)first, (int16_t)last, answer, answer_length);
}

#ifdef __cplusplus
}
#endif

#endif
