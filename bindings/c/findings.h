/* What the judging calls find of the survey that stands in the rows of survey_file.h: all of it, before anything is printed. */
#ifndef FINDINGS_H
#define FINDINGS_H

#include "survey_file.h"

static struct {
    struct llunareth_reading survey;
    struct llunareth_storey_finding storeys[LLUNARETH_STOREY_ROWS];
    struct llunareth_member_finding members[LLUNARETH_MEMBER_ROWS][LLUNARETH_CASES];
    struct llunareth_building_finding building;
} found;

/* How many load cases the survey has. */
static size_t case_count(void)
{
    return found.survey.header.form == LLUNARETH_FOUR_CASES ? LLUNARETH_CASES : 1;
}

/* A member, with the 0.40 condition of its storey in each case. */
static uint64_t judge_member(size_t j, const struct llunareth_storey_case_finding *cases)
{
    const struct llunareth_header *h = &found.survey.header;
    return llunareth_judge_member(h->knowledge, h->form, cases[0].walls_suffice, cases[1].walls_suffice, cases[2].walls_suffice,
                                  cases[3].walls_suffice, (const uint64_t *)&members[j], LLUNARETH_MEMBER_NUMBERS,
                                  (uint64_t *)found.members[j], LLUNARETH_MEMBER_VALUES);
}

/* A storey and its members, which begin in the rows at `first`. */
static uint64_t judge_storey(size_t i, size_t first)
{
    const struct llunareth_header *h = &found.survey.header;
    uint64_t returned =
        llunareth_judge_storey(h->knowledge, h->form, (const uint64_t *)&storeys[i], LLUNARETH_STOREY_NUMBERS, members + first,
                               (size_t)storeys[i].count, (uint64_t *)&found.storeys[i], LLUNARETH_STOREY_VALUES);
    for (size_t j = first; returned == LLUNARETH_ACCEPTED && j < first + storeys[i].count; j++) {
        returned = judge_member(j, found.storeys[i].cases);
    }
    return returned;
}

static uint64_t judge_building(void)
{
    return llunareth_judge_building((const uint64_t *)&found.survey.header, LLUNARETH_HEADER_NUMBERS, storeys,
                                    (size_t)found.survey.storey_rows, members, (size_t)found.survey.member_rows,
                                    (uint64_t *)&found.building, LLUNARETH_BUILDING_VALUES);
}

/* Each storey with its members, last the building: 0, or the first refusal. */
static uint64_t judge(void)
{
    uint64_t returned = LLUNARETH_ACCEPTED;
    for (size_t i = 0, first = 0; returned == LLUNARETH_ACCEPTED && i < found.survey.storey_rows; first += storeys[i++].count) {
        returned = judge_storey(i, first);
    }
    return returned == LLUNARETH_ACCEPTED ? judge_building() : returned;
}

#endif
