/* Sheets as constants of C. Two bytes of a number are the low one and the high one, of a negative one in two's complement; a
 * loop is followed by its lower form, where it starts, and its upper form, where it ends, and one of kind 6 by its skip after
 * these. A loop with a negative stride counts down. */
#ifndef RECORDS_H
#define RECORDS_H

#include <stdint.h>

#define BYTE(n) (uint8_t)((unsigned)(n) & 0xFF)
#define TWO_BYTES(n) BYTE(n), BYTE((unsigned)(n) >> 8)
#define WORK(least, most) 1, TWO_BYTES(least), TWO_BYTES(most)
#define LOOP(start, step, stride) 2, TWO_BYTES(start), TWO_BYTES(step), TWO_BYTES(stride)
#define END 3
#define CHOICE 4
#define NEXT_ARM 5
#define SKIP_LOOP(start, step, stride) 6, TWO_BYTES(start), TWO_BYTES(step), TWO_BYTES(stride)
#define SKIP(cycles) TWO_BYTES(cycles)
#define FORM(constant, i, j, k, p1, p2, p3, p4) \
    TWO_BYTES(constant), BYTE(i), BYTE(j), BYTE(k), BYTE(p1), BYTE(p2), BYTE(p3), BYTE(p4)
#define CONSTANT(constant) FORM(constant, 0, 0, 0, 0, 0, 0, 0)
#define INDEX_I(constant) FORM(constant, 1, 0, 0, 0, 0, 0, 0)
#define INDEX_J(constant) FORM(constant, 0, 1, 0, 0, 0, 0, 0)
#define PARAMETERS(p1, p2, p3, p4) FORM(0, 0, 0, 0, p1, p2, p3, p4)
#define PARAMETER_1 PARAMETERS(1, 0, 0, 0)
#define TWICE(...) __VA_ARGS__, __VA_ARGS__
#define EIGHT_TIMES(...) TWICE(TWICE(TWICE(__VA_ARGS__)))

#endif
