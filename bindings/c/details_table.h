/* What was found as a table for the terminal, at most 100 columns wide. */
#ifndef DETAILS_TABLE_H
#define DETAILS_TABLE_H

#include "figures.h"
#include "findings.h"

enum { TABLE_COLUMNS = 100 };

/* m and n_D stop at this number, which stands for every one above it. */
enum { RATIO_MOST = 9999999 };

/* ---- figures in columns ---- */

/* A figure in a column of 8, its point below the others' of its scale. */
static void add_in_column(struct text *line, uint64_t number, int decimals)
{
    struct text figure = {{0}, 0};
    add_figure(&figure, number, decimals);
    int before = 7 - decimals - (int)strcspn(figure.bytes, ".");
    add(line, "  %*s%-*s", before, "", 8 - before, figure.bytes);
}

/* The same of a ratio, with a mark where it stopped. */
static void add_ratio(struct text *line, uint64_t number, bool stopped)
{
    add_in_column(line, number, RATIO_DECIMALS);
    add(line, stopped ? "+" : " ");
}

static void add_word(struct text *line, const char *word)
{
    add(line, "  %-8s", word);
}

/* ---- a member ---- */

static const char *class_name(uint64_t member_class)
{
    switch (member_class) {
    case LLUNARETH_COLUMN_A:
        return "column A";
    case LLUNARETH_COLUMN_B:
        return "column B";
    case LLUNARETH_COLUMN_C:
        return "column C";
    case LLUNARETH_WALL_A:
        return "wall A";
    default:
        return "wall B";
    }
}

static void print_heading(void)
{
    puts("   Member  Class      m          limit      over by   rotation  limit     over by    n_D");
    puts("                                                      rad       rad       rad");
}

/* m, its limit, and by how much it is over. */
static void add_m(struct text *line, const struct llunareth_member_finding *f)
{
    bool stopped = f->m == RATIO_MOST;
    add_ratio(line, f->m, stopped);
    add_ratio(line, f->m_limit, false);
    if (f->over_m) {
        add_ratio(line, f->m - f->m_limit, stopped);
    } else {
        add_word(line, f->m_dropped ? "dropped" : "");
        add(line, " ");
    }
}

static void add_rotation(struct text *line, const struct llunareth_member_finding *f)
{
    add_in_column(line, f->rotation, ROTATION_DECIMALS);
    add_in_column(line, f->rotation_limit, ROTATION_DECIMALS);
    if (f->over_rotation) {
        add_in_column(line, f->rotation - f->rotation_limit, ROTATION_DECIMALS);
    } else {
        add_word(line, "");
    }
}

static void print_member(uint64_t number, const struct llunareth_member_finding *f)
{
    struct text line = {{0}, 0};
    add(&line, "  %7" PRIu64, number);
    add_word(&line, class_name(f->member_class));
    add_m(&line, f);
    add_rotation(&line, f);
    add_ratio(&line, f->nd, f->nd == RATIO_MOST);
    add(&line, f->over ? "  OVER" : "");
    print_line(&line);
}

/* ---- a storey ---- */

static void add_force(struct text *text, uint64_t number)
{
    add_figure(text, number, FORCE_DECIMALS);
    add(text, " kN");
}

/* Decimals for P / W and the allowed share, and for the mean n_D beside 0.65. */
static int share_decimals(const struct llunareth_storey_case_finding *f)
{
    return decimals_apart(f->over_shear, f->shear, f->allowed_num, f->allowed_den);
}

static void add_over_share(struct text *text, const struct llunareth_storey_case_finding *f)
{
    add_quotient(text, f->over_shear, f->shear, share_decimals(f));
}

static void add_allowed_share(struct text *text, const struct llunareth_storey_case_finding *f)
{
    add_quotient(text, f->allowed_num, f->allowed_den, share_decimals(f));
}

static void add_mean(struct text *text, const struct llunareth_storey_case_finding *f)
{
    uint64_t divisor = f->members * LLUNARETH_RATIO_SCALE;
    add_quotient(text, f->axial_total, divisor, decimals_apart(f->axial_total, divisor, 65, 100));
}

/* Whether it is Risky in this case, and by which of the three reasons. */
static void print_reasons(const struct llunareth_storey_case_finding *f)
{
    const char *before = ": ";
    fputs(f->risky ? "  Risky" : "  not Risky", stdout);
    if (f->by_share) {
        printf("%sby the share", before);
        before = ", ";
    }
    if (f->by_one_over) {
        printf("%sby one member over", before);
        before = ", ";
    }
    if (f->by_damage) {
        printf("%sby damage", before);
    }
    putchar('\n');
}

/* P, W and their quotient beside the allowed share; then the total, the count and the mean of n_D. */
static void print_storey_figures(const struct llunareth_storey_case_finding *f)
{
    struct text shares = {{0}, 0}, axial = {{0}, 0};
    add(&shares, "  P / W = ");
    add_force(&shares, f->over_shear);
    add(&shares, " / ");
    add_force(&shares, f->shear);
    add(&shares, " = ");
    add_over_share(&shares, f);
    add(&shares, ", allowed share ");
    add_allowed_share(&shares, f);
    add(&axial, "  \xCE\xA3 = ");
    add_figure(&axial, f->axial_total, RATIO_DECIMALS);
    add(&axial, ", c = %" PRIu64 ", mean n_D ", f->members);
    add_mean(&axial, f);
    add(&axial, "; 0.40 condition %s", f->walls_suffice ? "met" : "not met");
    print_line(&shares);
    print_line(&axial);
}

static void print_case(size_t i, size_t first, size_t c)
{
    printf("\nStorey %" PRIu64, storeys[i].number);
    if (found.survey.header.form == LLUNARETH_FOUR_CASES) {
        printf(", case %u", (unsigned)c + 1);
    }
    puts("\n");
    print_heading();
    for (size_t j = first; j < first + storeys[i].count; j++) {
        print_member(members[j].number, &found.members[j][c]);
    }
    putchar('\n');
    print_storey_figures(&found.storeys[i].cases[c]);
    print_reasons(&found.storeys[i].cases[c]);
}

/* ---- the building ---- */

static void add_tilts(struct text *text)
{
    add_figure(text, found.survey.header.tilt1, ROTATION_DECIMALS);
    add(text, " and ");
    add_figure(text, found.survey.header.tilt2, ROTATION_DECIMALS);
    add(text, " rad");
}

static void print_building(const struct llunareth_header *h)
{
    struct text text = {{0}, 0};
    add(&text, "k = ");
    add_decimals(&text, h->knowledge, KNOWLEDGE_DECIMALS);
    add(&text, ", H_T = ");
    add_figure(&text, h->height, HEIGHT_DECIMALS);
    add(&text, " m, n_s = %" PRIu64 ", tilts ", h->storeys);
    add_tilts(&text);
    add(&text, h->form == LLUNARETH_FOUR_CASES ? ", four load cases" : ", one load case");
    print_line(&text);
    puts("OVER: past a limit; over by: demand less limit; dropped: the test of m is dropped; +: that or more");
}

static void add_share_reason(struct text *text, const struct llunareth_storey_case_finding *f)
{
    add(text, "the members over carry ");
    add_force(text, f->over_shear);
    add(text, " of the storey shear of ");
    add_force(text, f->shear);
    add(text, ", ");
    add_over_share(text, f);
    add(text, " of it, more than the allowed share of ");
    add_allowed_share(text, f);
}

static void add_one_over_reason(struct text *text, const struct llunareth_storey_case_finding *f)
{
    add(text, "a member is over while the mean n_D of ");
    add_mean(text, f);
    add(text, " is above 0.65");
}

/* The reasons of a Risky storey in a case, one after another. */
static void add_storey_reasons(struct text *text, const struct llunareth_storey_case_finding *f)
{
    if (f->by_share) {
        add_share_reason(text, f);
    }
    if (f->by_one_over) {
        add(text, f->by_share ? "; " : "");
        add_one_over_reason(text, f);
    }
    if (f->by_damage) {
        add(text, f->by_share || f->by_one_over ? "; " : "");
        add(text, "the damage of its members reaches the limit of 4.2.5.5");
    }
}

/* The storey and the case that the call on the building names, with the reasons. */
static void add_risky_storey(struct text *text, const struct llunareth_building_finding *b)
{
    add(text, "storey %" PRIu64 " is Risky", storeys[b->place - 1].number);
    if (found.survey.header.form == LLUNARETH_FOUR_CASES) {
        add(text, " in case %" PRIu64, b->load_case);
    }
    add(text, ": ");
    add_storey_reasons(text, &found.storeys[b->place - 1].cases[b->load_case - 1]);
    add(text, ".");
}

static void add_tilt(struct text *text, const char *verb)
{
    add(text, "the larger of the tilts of ");
    add_tilts(text);
    add(text, " %s above 0.025 rad.", verb);
}

static void add_verdict(struct text *text, const struct llunareth_building_finding *b)
{
    add(text, b->risky ? "Risky: " : "Not Risky: ");
    if (b->place != 0) {
        add_risky_storey(text, b);
        add(text, b->tilted ? " And " : "");
    } else if (!b->risky) {
        add(text, "no storey is Risky, and ");
    }
    if (b->tilted) {
        add_tilt(text, "is");
    } else if (!b->risky) {
        add_tilt(text, "is not");
    }
}

static void print_table(void)
{
    print_building(&found.survey.header);
    for (size_t i = 0, first = 0; i < found.survey.storey_rows; first += storeys[i++].count) {
        for (size_t c = 0; c < case_count(); c++) {
            print_case(i, first, c);
        }
    }
    struct text verdict = {{0}, 0};
    add_verdict(&verdict, &found.building);
    putchar('\n');
    print_wrapped(&verdict, TABLE_COLUMNS);
}

#endif
