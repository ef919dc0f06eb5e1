/*
 * Prints the stack that each call takes, in bytes, a name and a number in each line: a call is made with a megabyte below it filled with one
 * byte, and what lies between the caller and the deepest byte that is another one afterwards is counted. The first argument is a file with
 * the largest survey, the second the longest file that llunareth_determine takes. Ends with 1 where a call refuses its survey. C99.
 */
#define _XOPEN_SOURCE 700
#include <stdio.h>
#include <string.h>
#include <ucontext.h>

#include "llunareth.h"

enum { STACK = 1 << 20, FILLED = 0xa5, STOREYS = 10, MEMBERS = 2000, FILE_ROOM = LLUNARETH_WRITE_MOST, TEXT_ROOM = 900000 };

static unsigned char stack[STACK];
static ucontext_t caller, callee;
static void (*call)(void);
static const unsigned char *called_from;
static uint64_t refused;

static uint8_t file[FILE_ROOM], text[TEXT_ROOM];
static size_t file_len, read_storeys, read_members;
static struct llunareth_storey storeys[STOREYS];
static struct llunareth_member members[MEMBERS];
static uint64_t header[LLUNARETH_READ_VALUES], out[LLUNARETH_STOREY_VALUES];

static void read_file(void)
{
    refused = llunareth_read(file, file_len, storeys, STOREYS, members, MEMBERS, header, LLUNARETH_READ_VALUES);
}

static void check_header(void)
{
    refused = llunareth_header_fault(header, LLUNARETH_HEADER_NUMBERS);
}

static void check_storey(void)
{
    refused = llunareth_storey_fault(header[LLUNARETH_READ_FORM], (const uint64_t *)&storeys[0], LLUNARETH_STOREY_NUMBERS);
}

static void check_member(void)
{
    refused = llunareth_member_fault(header[LLUNARETH_READ_FORM], (const uint64_t *)&members[0], LLUNARETH_MEMBER_NUMBERS);
}

static void judge_member(void)
{
    refused = llunareth_judge_member(header[LLUNARETH_READ_KNOWLEDGE], header[LLUNARETH_READ_FORM], true, true, true, true,
                                     (const uint64_t *)&members[0], LLUNARETH_MEMBER_NUMBERS, out, LLUNARETH_MEMBER_VALUES);
}

static void judge_storey(void)
{
    refused = llunareth_judge_storey(header[LLUNARETH_READ_KNOWLEDGE], header[LLUNARETH_READ_FORM], (const uint64_t *)&storeys[0],
                                     LLUNARETH_STOREY_NUMBERS, members, (size_t)storeys[0].count, out, LLUNARETH_STOREY_VALUES);
}

static void judge_building(void)
{
    refused = llunareth_judge_building(header, LLUNARETH_HEADER_NUMBERS, storeys, read_storeys, members, read_members, out,
                                       LLUNARETH_BUILDING_VALUES);
}

static void report(void)
{
    refused = llunareth_report(header, LLUNARETH_HEADER_NUMBERS, storeys, read_storeys, members, read_members, text, TEXT_ROOM, out,
                               LLUNARETH_REPORT_VALUES);
}

static void write_file(void)
{
    refused = llunareth_write(header, LLUNARETH_HEADER_NUMBERS, storeys, read_storeys, members, read_members, file, FILE_ROOM, out,
                              LLUNARETH_WRITE_VALUES);
}

static void site_coefficients(void)
{
    refused = llunareth_site_coefficients(LLUNARETH_ZE, 110, 35, out, LLUNARETH_SITE_VALUES);
}

static void spectrum(void)
{
    refused = llunareth_spectrum(LLUNARETH_ZE, LLUNARETH_USE_DD1, 190, 60, 110, 35, 7000, out, LLUNARETH_SPECTRUM_VALUES);
}

static void determine(void)
{
    refused = llunareth_determine(file, file_len, text, TEXT_ROOM) == 0 || text[0] != 'M';
}

static void make_call(void)
{
    unsigned char here = FILLED;
    called_from = &here;
    call();
}

/* Makes a call with the filled stack below it. */
static void on_filled_stack(void (*next)(void))
{
    memset(stack, FILLED, STACK);
    call = next;
    getcontext(&callee);
    callee.uc_stack.ss_sp = stack;
    callee.uc_stack.ss_size = STACK;
    callee.uc_link = &caller;
    makecontext(&callee, make_call, 0);
    swapcontext(&caller, &callee);
}

/* Prints the stack that a call takes; 0 where it is refused. */
static int measure(const char *name, void (*next)(void))
{
    size_t deepest = 0;
    on_filled_stack(next);
    while (deepest < STACK && stack[deepest] == FILLED) {
        deepest++;
    }
    printf("%s %zu\n", name, (size_t)(called_from - (stack + deepest)));
    return refused == 0;
}

static int load(const char *path)
{
    FILE *f = fopen(path, "rb");
    if (f == NULL) {
        return 0;
    }
    file_len = fread(file, 1, FILE_ROOM, f);
    return fclose(f) == 0;
}

int main(int argc, char **argv)
{
    int good = argc == 3 && load(argv[1]) && measure("llunareth_read", read_file);
    if (!good) {
        return 1;
    }
    read_storeys = (size_t)header[LLUNARETH_READ_STOREY_ROWS];
    read_members = (size_t)header[LLUNARETH_READ_MEMBER_ROWS];
    good = measure("llunareth_header_fault", check_header) && measure("llunareth_storey_fault", check_storey)
        && measure("llunareth_member_fault", check_member) && measure("llunareth_judge_member", judge_member)
        && measure("llunareth_judge_storey", judge_storey) && measure("llunareth_judge_building", judge_building)
        && measure("llunareth_report", report) && measure("llunareth_write", write_file)
        && measure("llunareth_site_coefficients", site_coefficients) && measure("llunareth_spectrum", spectrum) && load(argv[2]) && measure("llunareth_determine", determine);
    return good ? 0 : 1;
}
