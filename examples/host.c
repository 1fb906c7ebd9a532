/* A host program: how long dispense.listing can run with so many colorants, given as an argument.
 *
 *     pumdalin make dispense.listing --c dispense > dispense.h
 *     cc host.c $(pkg-config --cflags --libs pumdalin) -o host
 */
#include <errno.h>
#include <inttypes.h>
#include <stdio.h>
#include <stdlib.h>

#include <pumdalin.h>

#include "dispense.h"

int main(int argc, char **argv)
{
    const char *given = argc > 1 ? argv[1] : "16";
    char *end;
    errno = 0;
    long long colorants = strtoll(given, &end, 10);
    uint8_t area[PUMDALIN_AREA_LENGTH];

    if (argc > 2 || end == given || *end != '\0' || errno != 0) {
        fprintf(stderr, "usage: host [COLORANTS]\n");
        return 2;
    }
    uint32_t number = pumdalin_figures_checked(dispense, dispense_length, colorants, 0, 0, 0, 100, area, sizeof area);
    if (number != PUMDALIN_ANSWERED) {
        fprintf(stderr, "refused %" PRIu32 ": %s\n", number, pumdalin_words(number));
        return 1;
    }
    printf("%lld colorants: %" PRIu64 " to %" PRIu64 " cycles\n", colorants, pumdalin_least(area), pumdalin_most(area));
    return 0;
}
