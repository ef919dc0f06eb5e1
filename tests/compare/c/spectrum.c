/*
 * Prints what the calls on a site and on a spectrum answer for each line of seven numbers on standard input: site class, use, S_S and S_1 of
 * DD-1, S_S and S_1 of DD-2, period. Before them the figures that a program calls by name. C99 and C++11.
 */
#include <inttypes.h>
#include <stdio.h>

#include "llunareth.h"
#include "print.h"

static void print_constants(void)
{
    const uint64_t scales[] = {LLUNARETH_MAP_SCALE, LLUNARETH_FACTOR_SCALE, LLUNARETH_SPECTRUM_SCALE, LLUNARETH_PERIOD_SCALE};
    const uint64_t codes[] = {LLUNARETH_ZA, LLUNARETH_ZB, LLUNARETH_ZC, LLUNARETH_ZD, LLUNARETH_ZE, LLUNARETH_ZF,
                              LLUNARETH_USE_DD1, LLUNARETH_USE_DD2};
    const uint64_t values[] = {LLUNARETH_SITE_VALUES, LLUNARETH_SPECTRUM_VALUES};
    print("scales", scales, COUNT(scales));
    print("codes", codes, COUNT(codes));
    print("values", values, COUNT(values));
}

static void print_site(const uint64_t *v)
{
    uint64_t out[LLUNARETH_SITE_VALUES] = {0};
    const uint64_t returned = llunareth_site_coefficients(v[0], v[2], v[3], out, LLUNARETH_SITE_VALUES);
    const uint64_t found[] = {
        returned, out[LLUNARETH_SITE_FS], out[LLUNARETH_SITE_F1], out[LLUNARETH_SITE_SDS], out[LLUNARETH_SITE_SD1],
    };
    print("site", found, COUNT(found));
}

static void print_spectrum(const uint64_t *v)
{
    uint64_t out[LLUNARETH_SPECTRUM_VALUES] = {0};
    const uint64_t returned = llunareth_spectrum(v[0], v[1], v[2], v[3], v[4], v[5], v[6], out, LLUNARETH_SPECTRUM_VALUES);
    const uint64_t found[] = {returned, out[LLUNARETH_SPECTRUM_VALUE]};
    print("spectrum", found, COUNT(found));
}

/* What both calls return where `out` is one too short. */
static void print_short(const uint64_t *v)
{
    uint64_t out[LLUNARETH_SITE_VALUES] = {0};
    const uint64_t returned[] = {
        llunareth_site_coefficients(v[0], v[2], v[3], out, LLUNARETH_SITE_VALUES - 1),
        llunareth_spectrum(v[0], v[1], v[2], v[3], v[4], v[5], v[6], out, LLUNARETH_SPECTRUM_VALUES - 1),
        out[0],
    };
    print("short", returned, COUNT(returned));
}

int main(void)
{
    uint64_t v[7];
    print_constants();
    while (scanf("%" SCNu64 "%" SCNu64 "%" SCNu64 "%" SCNu64 "%" SCNu64 "%" SCNu64 "%" SCNu64, &v[0], &v[1], &v[2], &v[3], &v[4], &v[5], &v[6]) == 7) {
        print_site(v);
        print_spectrum(v);
        print_short(v);
    }
    return 0;
}
