/* Prints the name of each place, its number, and where the field of that name stands in its struct. C99 and C++11. */
#include <stdio.h>

#include "llunareth.h"

#define PLACE(place, of, field) printf(#place " %d %zu\n", (int)LLUNARETH_##place, offsetof(struct llunareth_##of, field) / sizeof(uint64_t))

static void print_reading(void)
{
    PLACE(READ_HEADER, reading, header);
    PLACE(READ_KNOWLEDGE, reading, header.knowledge);
    PLACE(READ_HEIGHT, reading, header.height);
    PLACE(READ_STOREYS, reading, header.storeys);
    PLACE(READ_TILT1, reading, header.tilt1);
    PLACE(READ_TILT2, reading, header.tilt2);
    PLACE(READ_COUNT, reading, header.count);
    PLACE(READ_FORM, reading, header.form);
    PLACE(READ_STOREY_ROWS, reading, storey_rows);
    PLACE(READ_MEMBER_ROWS, reading, member_rows);
}

static void print_member(void)
{
    PLACE(MEMBER_CLASS, member_finding, member_class);
    PLACE(MEMBER_M, member_finding, m);
    PLACE(MEMBER_M_LIMIT, member_finding, m_limit);
    PLACE(MEMBER_ROTATION, member_finding, rotation);
    PLACE(MEMBER_ROTATION_LIMIT, member_finding, rotation_limit);
    PLACE(MEMBER_OVER, member_finding, over);
    PLACE(MEMBER_ND, member_finding, nd);
    PLACE(MEMBER_M_DROPPED, member_finding, m_dropped);
    PLACE(MEMBER_OVER_M, member_finding, over_m);
    PLACE(MEMBER_OVER_ROTATION, member_finding, over_rotation);
}

static void print_storey(void)
{
    PLACE(STOREY_RISKY, storey_finding, risky);
    PLACE(STOREY_AXIAL_TOTAL, storey_finding, cases[0].axial_total);
    PLACE(STOREY_MEMBERS, storey_finding, cases[0].members);
    PLACE(STOREY_OVER_SHEAR, storey_finding, cases[0].over_shear);
    PLACE(STOREY_SHEAR, storey_finding, cases[0].shear);
    PLACE(STOREY_CASE_RISKY, storey_finding, cases[0].risky);
    PLACE(STOREY_WALLS_SUFFICE, storey_finding, cases[0].walls_suffice);
    PLACE(STOREY_BY_SHARE, storey_finding, cases[0].by_share);
    PLACE(STOREY_BY_ONE_OVER, storey_finding, cases[0].by_one_over);
    PLACE(STOREY_BY_DAMAGE, storey_finding, cases[0].by_damage);
    PLACE(STOREY_ALLOWED_NUM, storey_finding, cases[0].allowed_num);
    PLACE(STOREY_ALLOWED_DEN, storey_finding, cases[0].allowed_den);
}

static void print_building_and_site(void)
{
    PLACE(BUILDING_TILTED, building_finding, tilted);
    PLACE(BUILDING_RISKY, building_finding, risky);
    PLACE(BUILDING_PLACE, building_finding, place);
    PLACE(BUILDING_CASE, building_finding, load_case);
    PLACE(SITE_FS, site_finding, fs);
    PLACE(SITE_F1, site_finding, f1);
    PLACE(SITE_SDS, site_finding, sds);
    PLACE(SITE_SD1, site_finding, sd1);
}

int main(void)
{
    print_reading();
    print_member();
    print_storey();
    print_building_and_site();
    return 0;
}
