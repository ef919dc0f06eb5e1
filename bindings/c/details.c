/*
 * details [text | table] [FILE]: prints what the calls find of a survey file, or of standard input: each member's demands beside their
 * limits, each storey's share beside the allowed one, and why a storey is Risky.
 *
 *   details text FILE     a text for page/sheet.html and for other programs; docs/FORMAT.md, "The details", has its lines
 *   details table FILE    a table for the terminal, at the end the verdict and its reason; without a word the table is printed
 *
 * It shows and does not judge: every number is one that a call put out or that the survey has, and over, Risky and the reasons are the
 * calls'. A file is refused where `determine` refuses it. Exit status: 0 for a verdict, 1 for a refusal, 2 where the file cannot be read, the
 * text cannot be written, the program is called wrongly, or the library has another form of the calls than the header.
 *
 * gcc -std=c99 -I bindings/c bindings/c/details.c crates/exports/out/libexports.a -o details
 */
#include "details_table.h"
#include "findings.h"
#include "survey_file.h"

/* The version of the text; a change of its lines raises it. */
enum { TEXT_VERSION = 1 };

/* ---- the text ---- */

static void put(const char *name, uint64_t value)
{
    printf(" %s=%" PRIu64, name, value);
}

static void print_building_line(const struct llunareth_header *h)
{
    fputs("building", stdout);
    put("knowledge", h->knowledge);
    put("height", h->height);
    put("storeys", h->storeys);
    put("tilt1", h->tilt1);
    put("tilt2", h->tilt2);
    put("count", h->count);
    put("form", h->form);
    putchar('\n');
}

static void print_storey_line(size_t i)
{
    fputs("storey", stdout);
    put("place", i + 1);
    put("number", storeys[i].number);
    put("count", storeys[i].count);
    put("risky", found.storeys[i].risky);
    putchar('\n');
}

static void print_case_line(uint64_t storey, size_t c, const struct llunareth_storey_case_finding *f)
{
    fputs("case", stdout);
    put("storey", storey);
    put("case", c + 1);
    put("axial_total", f->axial_total);
    put("members", f->members);
    put("over_shear", f->over_shear);
    put("shear", f->shear);
    put("allowed_num", f->allowed_num);
    put("allowed_den", f->allowed_den);
    put("walls_suffice", f->walls_suffice);
    put("by_share", f->by_share);
    put("by_one_over", f->by_one_over);
    put("by_damage", f->by_damage);
    put("risky", f->risky);
    putchar('\n');
}

static void print_member_line(uint64_t storey, size_t c, uint64_t number, const struct llunareth_member_finding *f)
{
    fputs("member", stdout);
    put("storey", storey);
    put("case", c + 1);
    put("number", number);
    put("class", f->member_class);
    put("m", f->m);
    put("m_limit", f->m_limit);
    put("rotation", f->rotation);
    put("rotation_limit", f->rotation_limit);
    put("nd", f->nd);
    put("m_dropped", f->m_dropped);
    put("over_m", f->over_m);
    put("over_rotation", f->over_rotation);
    put("over", f->over);
    putchar('\n');
}

static void print_verdict_line(const struct llunareth_building_finding *f)
{
    fputs("verdict", stdout);
    put("tilted", f->tilted);
    put("risky", f->risky);
    put("place", f->place);
    put("storey", f->place == 0 ? 0 : storeys[f->place - 1].number);
    put("case", f->load_case);
    putchar('\n');
}

/* A storey with its cases, each followed by the members, which begin in the rows at `first`. */
static void print_storey_lines(size_t i, size_t first)
{
    print_storey_line(i);
    for (size_t c = 0; c < case_count(); c++) {
        print_case_line(storeys[i].number, c, &found.storeys[i].cases[c]);
        for (size_t j = first; j < first + storeys[i].count; j++) {
            print_member_line(storeys[i].number, c, members[j].number, &found.members[j][c]);
        }
    }
}

static void print_version_line(void)
{
    printf("details version=%d\n", TEXT_VERSION);
}

static void print_text(void)
{
    print_version_line();
    print_building_line(&found.survey.header);
    for (size_t i = 0, first = 0; i < found.survey.storey_rows; first += storeys[i++].count) {
        print_storey_lines(i, first);
    }
    print_verdict_line(&found.building);
}

static int print_refusal_text(uint64_t returned)
{
    print_version_line();
    fputs("refused", stdout);
    put("refusal", LLUNARETH_REFUSAL(returned));
    put("line", LLUNARETH_LINE(returned));
    putchar('\n');
    return REFUSED;
}

/* ---- the program ---- */

static int refuse(uint64_t returned, bool as_text)
{
    return as_text ? print_refusal_text(returned) : print_refusal(returned);
}

/* Judges what was read and prints what was found. */
static int show(bool as_text)
{
    uint64_t returned = judge();
    if (returned != LLUNARETH_ACCEPTED) {
        return refuse(returned, as_text);
    }
    if (as_text) {
        print_text();
    } else {
        print_table();
    }
    return ACCEPTED;
}

/* The details of a file by name, or of standard input. */
static int run(const char *name, bool as_text)
{
    uint64_t returned;
    switch (read_survey("details", name, &found.survey, &returned)) {
    case ACCEPTED:
        return written(show(as_text));
    case REFUSED:
        return written(refuse(returned, as_text));
    default:
        return FAILED;
    }
}

int main(int argc, char **argv)
{
    if (!same_version("details")) {
        return FAILED;
    }
    bool as_text = argc > 1 && strcmp(argv[1], "text") == 0;
    bool as_table = argc > 1 && strcmp(argv[1], "table") == 0;
    int name = as_text || as_table ? 2 : 1;
    if (argc > name + 1) {
        fputs("usage: details [text | table] [FILE]\n", stderr);
        return FAILED;
    }
    return run(argc > name ? argv[name] : NULL, as_text);
}
