/*
 * What verdict.c and details.c share: a survey file, by name or standard input, read into rows for as many records as `determine` has; and
 * the exit statuses. `isatty` is of POSIX; unistd.h has it under -std=c99 too.
 */
#ifndef SURVEY_FILE_H
#define SURVEY_FILE_H

#include <inttypes.h>
#include <stdio.h>
#include <unistd.h>

#include "llunareth.h"

enum { ACCEPTED = 0, REFUSED = 1, FAILED = 2 };

/* One byte more than the longest file, so that a longer one shows. */
static uint8_t file[LLUNARETH_FILE_MOST + 1];
static struct llunareth_storey storeys[LLUNARETH_STOREY_ROWS];
static struct llunareth_member members[LLUNARETH_MEMBER_ROWS];

static int fail(const char *what)
{
    perror(what);
    return FAILED;
}

/* Whether the library has the form of the calls that the header describes; if not, the program says so. */
static bool same_version(const char *program)
{
    bool same = llunareth_version() == LLUNARETH_VERSION;
    if (!same) {
        fprintf(stderr, "%s: the library has another form of the calls\n", program);
    }
    return same;
}

/* Reads the first bytes of `file` into the rows: 0, or refusal and line. */
static uint64_t read_rows(size_t length, struct llunareth_reading *survey)
{
    if (length > LLUNARETH_FILE_MOST) {
        return LLUNARETH_TOO_LARGE;
    }
    return llunareth_read(file, length, storeys, LLUNARETH_STOREY_ROWS, members, LLUNARETH_MEMBER_ROWS, (uint64_t *)survey,
                          LLUNARETH_READ_VALUES);
}

/* Reads an open file into `file` and then into the rows. */
static int read_open(FILE *input, const char *name, struct llunareth_reading *survey, uint64_t *returned)
{
    size_t length = fread(file, 1, sizeof file, input);
    if (ferror(input)) {
        return fail(name);
    }
    *returned = read_rows(length, survey);
    return *returned == LLUNARETH_ACCEPTED ? ACCEPTED : REFUSED;
}

/* Where a person types at a terminal, the program says what is awaited. */
static void say_what_is_awaited(const char *program)
{
    if (isatty(STDIN_FILENO)) {
        fprintf(stderr, "%s: a survey is awaited on standard input; for a file: %s FILE\n", program, program);
    }
}

/*
 * Reads the survey of a file by name, or of standard input where the name is NULL. ACCEPTED: it stands in the rows. REFUSED: refusal and
 * line stand in `returned`. FAILED: the file cannot be read, which is said.
 */
static int read_survey(const char *program, const char *name, struct llunareth_reading *survey, uint64_t *returned)
{
    if (name == NULL) {
        say_what_is_awaited(program);
        return read_open(stdin, "standard input", survey, returned);
    }
    FILE *input = fopen(name, "rb");
    if (input == NULL) {
        return fail(name);
    }
    int status = read_open(input, name, survey, returned);
    fclose(input);
    return status;
}

/* A refusal in a line for a person. */
static int print_refusal(uint64_t returned)
{
    printf("refused: %" PRIu64, LLUNARETH_REFUSAL(returned));
    if (LLUNARETH_LINE(returned) != 0) {
        printf(" at line %" PRIu64, LLUNARETH_LINE(returned));
    }
    putchar('\n');
    return REFUSED;
}

/* The status of a program that has printed, FAILED where that cannot be written. */
static int written(int status)
{
    return fflush(stdout) == 0 && !ferror(stdout) ? status : fail("standard output");
}

#endif
