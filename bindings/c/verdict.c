/*
 * verdict [FILE]: prints the verdict on a survey file, or on standard input, in one line:
 *
 *   not Risky
 *   Risky: storey NUMBER            the first Risky one
 *   Risky: storey NUMBER, case N    in four load cases, with the lowest in which it is Risky
 *   Risky: tilt                     no storey is Risky
 *   refused: N at line L
 *   refused: N                      no line is named
 *
 * A file is refused where `determine` refuses it. Exit status: 0 for a verdict, 1 for a refusal, 2 where the file cannot be read, the
 * line cannot be written, the program is called wrongly, or the library has another form of the calls than the header.
 *
 * gcc -std=c99 -I bindings/c bindings/c/verdict.c crates/exports/out/libexports.a -o verdict
 */
#include "survey_file.h"

/* The storey that the verdict names, and in four load cases the case. */
static void print_storey(uint64_t form, uint64_t place, uint64_t load_case)
{
    printf("Risky: storey %" PRIu64, storeys[place - 1].number);
    if (form == LLUNARETH_FOUR_CASES) {
        printf(", case %" PRIu64, load_case);
    }
    putchar('\n');
}

static int print_verdict(uint64_t form, const struct llunareth_building_finding *found)
{
    if (!found->risky) {
        puts("not Risky");
    } else if (found->place == 0) {
        puts("Risky: tilt");
    } else {
        print_storey(form, found->place, found->load_case);
    }
    return ACCEPTED;
}

/* Judges the building that was read. */
static int judge(const struct llunareth_reading *survey)
{
    struct llunareth_building_finding found;
    uint64_t returned = llunareth_judge_building((const uint64_t *)&survey->header, LLUNARETH_HEADER_NUMBERS, storeys,
                                                 (size_t)survey->storey_rows, members, (size_t)survey->member_rows, (uint64_t *)&found,
                                                 LLUNARETH_BUILDING_VALUES);
    return returned == LLUNARETH_ACCEPTED ? print_verdict(survey->header.form, &found) : print_refusal(returned);
}

/* The verdict on a file by name, or on standard input. */
static int run(const char *name)
{
    struct llunareth_reading survey;
    uint64_t returned;
    switch (read_survey("verdict", name, &survey, &returned)) {
    case ACCEPTED:
        return written(judge(&survey));
    case REFUSED:
        return written(print_refusal(returned));
    default:
        return FAILED;
    }
}

int main(int argc, char **argv)
{
    if (!same_version("verdict")) {
        return FAILED;
    }
    if (argc > 2) {
        fputs("usage: verdict [FILE]\n", stderr);
        return FAILED;
    }
    return run(argc == 2 ? argv[1] : NULL);
}
