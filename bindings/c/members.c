/*
 * members < FILE: prints a table of a survey's members in each load case: the class, m and the rotation beside their limits, and whether the
 * member is over (where the m test is dropped, it is not over by m). Exit status: 0; 1 for a refusal; 2 where standard input cannot be read,
 * standard output cannot be written, or the library has another form of the calls than the header.
 *
 * gcc -std=c99 members.c $(pkg-config --cflags --libs llunareth) -o members
 */
#include <inttypes.h>
#include <stdio.h>
#include <stdlib.h>

#include "llunareth.h"

enum { STOREYS = 10, MEMBERS = 2000 };

/* By the numbers of the classes. */
static const char *const classes[] = {"", "column A", "column B", "column C", "wall A", "wall B"};

/* One byte more than the longest file, so that a longer one is refused. */
static uint8_t file[LLUNARETH_WRITE_MOST + 1];
static struct llunareth_storey storeys[STOREYS];
static struct llunareth_member members[MEMBERS];

/* Ends the program with 2 where something does not hold. */
static void expect(bool holds, const char *otherwise)
{
    if (!holds) {
        fprintf(stderr, "members: %s\n", otherwise);
        exit(2);
    }
}

/* Ends the program with a status, once all that it printed is written. */
static void end(int status)
{
    expect(fflush(stdout) == 0 && !ferror(stdout), "standard output cannot be written");
    exit(status);
}

/* Ends the program where a call refused. */
static void check(uint64_t returned)
{
    if (returned != LLUNARETH_ACCEPTED) {
        printf("refused: %" PRIu64 " at line %" PRIu64 "\n", LLUNARETH_REFUSAL(returned), LLUNARETH_LINE(returned));
        end(1);
    }
}

static void print_row(uint64_t storey, uint64_t member, size_t load_case, const struct llunareth_member_finding *f)
{
    printf("%7" PRIu64 " %7" PRIu64 " %4zu  %-8s %9.5f %9.5f %9.6f %9.6f %5s\n", storey, member, load_case, classes[f->member_class],
           (double)f->m / LLUNARETH_RATIO_SCALE, (double)f->m_limit / LLUNARETH_RATIO_SCALE,
           (double)f->rotation / LLUNARETH_ROTATION_SCALE, (double)f->rotation_limit / LLUNARETH_ROTATION_SCALE, f->over ? "yes" : "no");
}

/* Judges a storey, then each of its members with the storey's 0.40 condition. */
static void print_storey(const struct llunareth_header *header, const struct llunareth_storey *storey, const struct llunareth_member *own)
{
    const size_t cases = header->form == LLUNARETH_FOUR_CASES ? LLUNARETH_CASES : 1;
    struct llunareth_storey_finding found = {0};
    struct llunareth_member_finding member[LLUNARETH_CASES];
    check(llunareth_judge_storey(header->knowledge, header->form, (const uint64_t *)storey, LLUNARETH_STOREY_NUMBERS, own,
                                 (size_t)storey->count, (uint64_t *)&found, LLUNARETH_STOREY_VALUES));
    for (size_t i = 0; i < storey->count; i++) {
        check(llunareth_judge_member(header->knowledge, header->form, found.cases[0].walls_suffice, found.cases[1].walls_suffice,
                                     found.cases[2].walls_suffice, found.cases[3].walls_suffice, (const uint64_t *)&own[i],
                                     LLUNARETH_MEMBER_NUMBERS, (uint64_t *)member, LLUNARETH_MEMBER_VALUES));
        for (size_t c = 0; c < cases; c++) {
            print_row(storey->number, own[i].number, c + 1, &member[c]);
        }
    }
}

int main(void)
{
    struct llunareth_reading read;
    const struct llunareth_member *own = members;
    const size_t length = fread(file, 1, sizeof file, stdin);
    expect(!ferror(stdin), "standard input cannot be read");
    expect(llunareth_version() == LLUNARETH_VERSION, "the library has another form of the calls");
    check(llunareth_read(file, length, storeys, STOREYS, members, MEMBERS, (uint64_t *)&read, LLUNARETH_READ_VALUES));
    puts(" storey  member case  class            m     limit  rotation     limit  over");
    for (size_t i = 0; i < read.storey_rows; i++) {
        print_storey(&read.header, &storeys[i], own);
        own += storeys[i].count;
    }
    end(0);
}
