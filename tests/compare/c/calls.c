/*
 * Prints what the calls of llunareth.h answer for the survey on standard input, by the names of the fields and places: a word and numbers in
 * each line, then the report, the survey written as a file, and what `determine` prints. C99 and C++11.
 */
#include <inttypes.h>
#include <stdio.h>
#include <string.h>

#include "llunareth.h"
#include "print.h"

enum { FILE_ROOM = 100000 };

static uint8_t file[FILE_ROOM];
static uint8_t text[LLUNARETH_SHEET_MOST];
static uint8_t written[FILE_ROOM];
static struct llunareth_storey storeys[LLUNARETH_STOREY_ROWS];
static struct llunareth_member members[LLUNARETH_MEMBER_ROWS];

/* The figures that a program calls by name. */
static void print_constants(void)
{
    const uint64_t version[] = {LLUNARETH_VERSION, llunareth_version()};
    const uint64_t scales[] = {LLUNARETH_RATIO_SCALE, LLUNARETH_ROTATION_SCALE, LLUNARETH_FORCE_SCALE, LLUNARETH_ZERO_FORCE,
                               LLUNARETH_WRITE_MOST,  LLUNARETH_SHEET_MOST};
    const uint64_t forms[] = {LLUNARETH_OLD_FORM, LLUNARETH_FOUR_CASES, LLUNARETH_CASES};
    const uint64_t numbers[] = {LLUNARETH_HEADER_NUMBERS, LLUNARETH_STOREY_NUMBERS, LLUNARETH_CASE_NUMBERS, LLUNARETH_MEMBER_NUMBERS};
    const uint64_t values[] = {
        LLUNARETH_SHORT,         LLUNARETH_READ_VALUES,        LLUNARETH_FINDING_VALUES,  LLUNARETH_MEMBER_VALUES,
        LLUNARETH_STOREY_VALUES, LLUNARETH_STOREY_CASE_VALUES, LLUNARETH_BUILDING_VALUES, LLUNARETH_REPORT_VALUES,
        LLUNARETH_WRITE_VALUES,
    };
    print("version", version, COUNT(version));
    print("scales", scales, COUNT(scales));
    print("forms", forms, COUNT(forms));
    print("numbers", numbers, COUNT(numbers));
    print("values", values, COUNT(values));
}

/* How many load cases a form has. */
static size_t cases_of(uint64_t form)
{
    return form == LLUNARETH_FOUR_CASES ? LLUNARETH_CASES : 1;
}

/* A row by the names of its fields, then by its words from the first on. */
static void print_storey(const struct llunareth_storey *s)
{
    const uint64_t numbers[] = {s->number, s->shears[0], s->shears[1], s->shears[2], s->shears[3], s->count};
    print("S", numbers, LLUNARETH_STOREY_NUMBERS);
    print("words", (const uint64_t *)s, sizeof *s / sizeof(uint64_t));
}

static void print_case(const struct llunareth_load_case *c)
{
    const uint64_t numbers[] = {c->nk, c->me, c->mp, c->ve, c->vr, c->shear, c->rotation, c->drift};
    print("D", numbers, LLUNARETH_CASE_NUMBERS);
}

static void print_member(const struct llunareth_member *m)
{
    const uint64_t numbers[] = {
        m->number,  m->long_side, m->short_side, m->area,  m->fcm,  m->fctm,         m->fyw,    m->depth,  m->height,
        m->spacing, m->core,      m->hoops,      m->hooks, m->zone, m->strengthened, m->factor, m->damage, m->nd,
        m->annex_e,
    };
    print("M", numbers, COUNT(numbers));
    for (size_t c = 0; c < LLUNARETH_CASES; c++) {
        print_case(&m->cases[c]);
    }
    print("words", (const uint64_t *)m, sizeof *m / sizeof(uint64_t));
}

/* The three checks of a record, on all its numbers and on all but the last. */
static void check_records(const uint64_t *header)
{
    const uint64_t form = header[LLUNARETH_READ_FORM];
    const uint64_t *storey = (const uint64_t *)&storeys[0];
    const uint64_t *member = (const uint64_t *)&members[0];
    const uint64_t faults[] = {
        llunareth_header_fault(header, LLUNARETH_HEADER_NUMBERS),
        llunareth_storey_fault(form, storey, LLUNARETH_STOREY_NUMBERS),
        llunareth_member_fault(form, member, LLUNARETH_MEMBER_NUMBERS),
        llunareth_header_fault(header, LLUNARETH_HEADER_NUMBERS - 1),
        llunareth_storey_fault(form, storey, LLUNARETH_STOREY_NUMBERS - 1),
        llunareth_member_fault(form, member, LLUNARETH_MEMBER_NUMBERS - 1),
    };
    print("faults", faults, COUNT(faults));
}

/* The first member in the old form, its first case kept: the others none, then all of zeros. */
static void check_lacking(void)
{
    const struct llunareth_load_case none = LLUNARETH_NO_CASE;
    struct llunareth_member m = members[0];
    uint64_t faults[2];
    for (size_t c = 1; c < LLUNARETH_CASES; c++) {
        m.cases[c] = none;
    }
    faults[0] = llunareth_member_fault(LLUNARETH_OLD_FORM, (const uint64_t *)&m, LLUNARETH_MEMBER_NUMBERS);
    memset(&m.cases[1], 0, sizeof m.cases - sizeof m.cases[0]);
    faults[1] = llunareth_member_fault(LLUNARETH_OLD_FORM, (const uint64_t *)&m, LLUNARETH_MEMBER_NUMBERS);
    print("lacking", faults, COUNT(faults));
}

static void judge_member(uint64_t k, uint64_t form, const bool *met, const struct llunareth_member *m)
{
    uint64_t out[LLUNARETH_MEMBER_VALUES] = {0};
    const uint64_t returned = llunareth_judge_member(k, form, met[0], met[1], met[2], met[3], (const uint64_t *)m,
                                                     LLUNARETH_MEMBER_NUMBERS, out, LLUNARETH_MEMBER_VALUES);
    print("member", &returned, 1);
    for (size_t c = 0; c < cases_of(form); c++) {
        const uint64_t *of_case = out + LLUNARETH_FINDING_VALUES * c;
        const uint64_t found[] = {
            of_case[LLUNARETH_MEMBER_CLASS],     of_case[LLUNARETH_MEMBER_M],
            of_case[LLUNARETH_MEMBER_M_LIMIT],   of_case[LLUNARETH_MEMBER_ROTATION],
            of_case[LLUNARETH_MEMBER_ROTATION_LIMIT], of_case[LLUNARETH_MEMBER_OVER],
            of_case[LLUNARETH_MEMBER_ND],        of_case[LLUNARETH_MEMBER_M_DROPPED],
            of_case[LLUNARETH_MEMBER_OVER_M],    of_case[LLUNARETH_MEMBER_OVER_ROTATION],
        };
        print("member case", found, COUNT(found));
    }
}

/* What is found of a storey in one case, whose values stand as those of the first do. */
static void print_storey_case(const uint64_t *of_case)
{
    const uint64_t found[] = {
        of_case[LLUNARETH_STOREY_AXIAL_TOTAL], of_case[LLUNARETH_STOREY_MEMBERS],    of_case[LLUNARETH_STOREY_OVER_SHEAR],
        of_case[LLUNARETH_STOREY_SHEAR],       of_case[LLUNARETH_STOREY_CASE_RISKY], of_case[LLUNARETH_STOREY_WALLS_SUFFICE],
        of_case[LLUNARETH_STOREY_BY_SHARE],    of_case[LLUNARETH_STOREY_BY_ONE_OVER], of_case[LLUNARETH_STOREY_BY_DAMAGE],
        of_case[LLUNARETH_STOREY_ALLOWED_NUM], of_case[LLUNARETH_STOREY_ALLOWED_DEN],
    };
    print("storey case", found, COUNT(found));
}

/* A storey, then each of its members with the storey's 0.40 condition by case. */
static void judge_storey(uint64_t k, uint64_t form, const struct llunareth_storey *s, const struct llunareth_member *own)
{
    uint64_t out[LLUNARETH_STOREY_VALUES] = {0};
    bool met[LLUNARETH_CASES] = {false};
    const uint64_t returned =
        llunareth_judge_storey(k, form, (const uint64_t *)s, LLUNARETH_STOREY_NUMBERS, own, (size_t)s->count, out, LLUNARETH_STOREY_VALUES);
    const uint64_t found[] = {returned, out[LLUNARETH_STOREY_RISKY]};
    print("storey", found, COUNT(found));
    for (size_t c = 0; c < cases_of(form); c++) {
        const uint64_t *of_case = out + LLUNARETH_STOREY_CASE_VALUES * c;
        print_storey_case(of_case);
        met[c] = of_case[LLUNARETH_STOREY_WALLS_SUFFICE] == 1;
    }
    for (uint64_t i = 0; i < s->count; i++) {
        judge_member(k, form, met, &own[i]);
    }
}

static void judge_building(const uint64_t *header, size_t storey_rows, size_t member_rows)
{
    uint64_t out[LLUNARETH_BUILDING_VALUES] = {0};
    const uint64_t returned = llunareth_judge_building(header, LLUNARETH_HEADER_NUMBERS, storeys, storey_rows, members, member_rows, out,
                                                       LLUNARETH_BUILDING_VALUES);
    const uint64_t found[] = {
        returned,
        out[LLUNARETH_BUILDING_TILTED],
        out[LLUNARETH_BUILDING_RISKY],
        out[LLUNARETH_BUILDING_PLACE],
        out[LLUNARETH_BUILDING_CASE],
    };
    print("building", found, COUNT(found));
}

static void report(const uint64_t *header, size_t storey_rows, size_t member_rows)
{
    uint64_t out[LLUNARETH_REPORT_VALUES] = {0};
    const uint64_t returned = llunareth_report(header, LLUNARETH_HEADER_NUMBERS, storeys, storey_rows, members, member_rows, text,
                                               sizeof text, out, LLUNARETH_REPORT_VALUES);
    const uint64_t found[] = {returned, out[LLUNARETH_REPORT_LENGTH]};
    print("report", found, COUNT(found));
    fwrite(text, 1, (size_t)out[LLUNARETH_REPORT_LENGTH], stdout);
}

/* The file written, then whether it is read back as the same rows: what reading returns, and whether storeys and members are the same. */
static void write_and_read(const uint64_t *header, size_t storey_rows, size_t member_rows)
{
    static struct llunareth_storey storeys_back[LLUNARETH_STOREY_ROWS];
    static struct llunareth_member members_back[LLUNARETH_MEMBER_ROWS];
    uint64_t out[LLUNARETH_WRITE_VALUES] = {0};
    uint64_t back[LLUNARETH_READ_VALUES] = {0};
    const uint64_t returned = llunareth_write(header, LLUNARETH_HEADER_NUMBERS, storeys, storey_rows, members, member_rows, written,
                                              sizeof written, out, LLUNARETH_WRITE_VALUES);
    const size_t length = (size_t)out[LLUNARETH_WRITE_LENGTH];
    const uint64_t found[] = {returned, length};
    print("write", found, COUNT(found));
    fwrite(written, 1, length, stdout);
    const uint64_t reread = llunareth_read(written, length, storeys_back, LLUNARETH_STOREY_ROWS, members_back, LLUNARETH_MEMBER_ROWS, back,
                                           LLUNARETH_READ_VALUES);
    const uint64_t same[] = {
        reread,
        memcmp(storeys, storeys_back, storey_rows * sizeof storeys[0]) == 0,
        memcmp(members, members_back, member_rows * sizeof members[0]) == 0,
    };
    print("reread", same, COUNT(same));
}

/* What each call returns where `out` is one too short. */
static void call_short(size_t length, const uint64_t *header, size_t storey_rows, size_t member_rows)
{
    uint64_t out[LLUNARETH_STOREY_VALUES] = {0};
    const uint64_t k = header[LLUNARETH_READ_KNOWLEDGE];
    const uint64_t form = header[LLUNARETH_READ_FORM];
    const uint64_t *storey = (const uint64_t *)&storeys[0];
    const uint64_t *member = (const uint64_t *)&members[0];
    const uint64_t returned[] = {
        llunareth_read(file, length, storeys, storey_rows, members, member_rows, out, LLUNARETH_READ_VALUES - 1),
        llunareth_judge_member(k, form, false, false, false, false, member, LLUNARETH_MEMBER_NUMBERS, out, LLUNARETH_MEMBER_VALUES - 1),
        llunareth_judge_storey(k, form, storey, LLUNARETH_STOREY_NUMBERS, members, member_rows, out, LLUNARETH_STOREY_VALUES - 1),
        llunareth_judge_building(header, LLUNARETH_HEADER_NUMBERS, storeys, storey_rows, members, member_rows, out,
                                 LLUNARETH_BUILDING_VALUES - 1),
        llunareth_report(header, LLUNARETH_HEADER_NUMBERS, storeys, storey_rows, members, member_rows, text, sizeof text, out,
                         LLUNARETH_REPORT_VALUES - 1),
        llunareth_write(header, LLUNARETH_HEADER_NUMBERS, storeys, storey_rows, members, member_rows, written, sizeof written, out,
                        LLUNARETH_WRITE_VALUES - 1),
        out[0],
    };
    print("short", returned, COUNT(returned));
}

/* The records that were read, then each call on them. */
static void call_all(size_t length, const uint64_t *read)
{
    const uint64_t *header = read + LLUNARETH_READ_HEADER;
    const size_t storey_rows = (size_t)read[LLUNARETH_READ_STOREY_ROWS];
    const size_t member_rows = (size_t)read[LLUNARETH_READ_MEMBER_ROWS];
    const struct llunareth_member *own = members;
    for (size_t i = 0; i < storey_rows; i++) {
        print_storey(&storeys[i]);
    }
    for (size_t i = 0; i < member_rows; i++) {
        print_member(&members[i]);
    }
    check_records(header);
    check_lacking();
    for (size_t i = 0; i < storey_rows; i++) {
        judge_storey(read[LLUNARETH_READ_KNOWLEDGE], read[LLUNARETH_READ_FORM], &storeys[i], own);
        own += storeys[i].count;
    }
    judge_building(header, storey_rows, member_rows);
    call_short(length, header, storey_rows, member_rows);
    report(header, storey_rows, member_rows);
    write_and_read(header, storey_rows, member_rows);
}

int main(void)
{
    const uint64_t sizes[] = {sizeof(struct llunareth_storey), sizeof(struct llunareth_load_case), sizeof(struct llunareth_member)};
    const size_t length = fread(file, 1, sizeof file, stdin);
    uint64_t read[LLUNARETH_READ_VALUES] = {0};
    const uint64_t returned =
        llunareth_read(file, length, storeys, LLUNARETH_STOREY_ROWS, members, LLUNARETH_MEMBER_ROWS, read, LLUNARETH_READ_VALUES);
    const uint64_t told[] = {
        LLUNARETH_REFUSAL(returned),  LLUNARETH_LINE(returned),   read[LLUNARETH_READ_KNOWLEDGE], read[LLUNARETH_READ_HEIGHT],
        read[LLUNARETH_READ_STOREYS], read[LLUNARETH_READ_TILT1], read[LLUNARETH_READ_TILT2],     read[LLUNARETH_READ_COUNT],
        read[LLUNARETH_READ_FORM],
    };
    print_constants();
    print("sizes", sizes, COUNT(sizes));
    print("read", told, COUNT(told));
    if (returned == 0) {
        call_all(length, read);
    }
    const uint64_t put = llunareth_determine(file, length, text, sizeof text);
    print("determine", &put, 1);
    fwrite(text, 1, (size_t)put, stdout);
    return 0;
}
