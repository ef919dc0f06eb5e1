/*
 * The calls of Llunareth for programs in C (C99 and later) and C++ (C++11 and later). Link with libllunareth.a of an installed copy, or with
 * crates/exports/out/libexports.a of the repository, which `rt lib` in crates/exports makes: the same library. CALLS.md has the calls and
 * their refusals, and how to install and link; FORMAT.md has the survey file and the fields with their units and ranges; SPECTRUM.md has the
 * codes and units of sites and spectra.
 *
 * A buffer is handed over as a pointer and the number of its elements. The pointer is not null, also where there are none, rows and numbers
 * stand at addresses that 8 divides, and a buffer that a call may change overlaps no other.
 *
 * A record handed in as numbers has them in the order of its struct, a header those of the B line and then its form. A number that is not
 * given is refused by 3, a count that is not given beside its rows by 1; numbers past the last are not looked at. A struct is handed in as
 * numbers by (const uint64_t *)&row, and one is lent as `out` by (uint64_t *)&finding, with the number of its values: each is numbers of 64
 * bits one after another and no others.
 *
 * A survey has one of two forms, which its header tells: the old form of one load case, or the form of four. In the old form the first case
 * and the first storey shear hold the values. The other cases hold 0, N_K the force 0: LLUNARETH_NO_CASE; a case of zeros is refused by 3.
 *
 * A call with a buffer `out` returns refusal and line in one number, refusal + 256 * line: 0 where it is accepted, the line 0 except when
 * reading. Accepted, it puts its values, and only these, to the front of `out`. Refused, it leaves everything that was lent as it was.
 * Where `out` is too short for its values, it returns LLUNARETH_SHORT before anything else, and leaves everything as it was too.
 */
#ifndef LLUNARETH_H
#define LLUNARETH_H

#include <stdbool.h>
#include <stddef.h>
#include <stdint.h>

#ifdef __cplusplus
extern "C" {
#endif

/*
 * The form of the calls as this header has it. A program holds it against llunareth_version() once, before any other call: each change of a
 * call, and each call that is added, raises it.
 */
#define LLUNARETH_VERSION 8

/* The forms of a survey. */
enum {
    LLUNARETH_OLD_FORM = 1,  /* one load case */
    LLUNARETH_FOUR_CASES = 2 /* four load cases */
};

/* How many load cases a record holds. */
enum { LLUNARETH_CASES = 4 };

/* The classes of members. */
enum {
    LLUNARETH_COLUMN_A = 1,
    LLUNARETH_COLUMN_B = 2,
    LLUNARETH_COLUMN_C = 3,
    LLUNARETH_WALL_A = 4,
    LLUNARETH_WALL_B = 5
};

/* The refusals by their numbers (REFUSALS.md); 10 and 13 are not used. */
enum {
    LLUNARETH_ACCEPTED = 0,          /* none */
    LLUNARETH_STRUCTURE = 1,         /* a line is not of the kind or length due there, or absent; a count is not the rows given */
    LLUNARETH_SPELLING = 2,          /* a field is not written as it must be */
    LLUNARETH_OUT_OF_RANGE = 3,      /* a number is outside its range */
    LLUNARETH_SIDES_EXCHANGED = 4,   /* the short side is above the long side */
    LLUNARETH_NUMBER_REPEATED = 5,   /* a storey's or a member's number stands twice */
    LLUNARETH_TRAILING_BYTES = 6,    /* something follows the last line */
    LLUNARETH_NOT_LOW_RISE = 7,      /* the building is above 30 m or 10 storeys */
    LLUNARETH_TOO_LARGE = 8,         /* more records than rows lent, or a longer file than llunareth_determine takes */
    LLUNARETH_SHEET_TOO_LONG = 9,    /* the sheet is longer than the bytes lent */
    LLUNARETH_FILE_TOO_LONG = 11,    /* the file to be written is longer than the bytes lent */
    LLUNARETH_CASE_MISNUMBERED = 12, /* the D lines of a member are not numbered 1, 2, 3, 4 */
    LLUNARETH_OUTSIDE_MAP = 14       /* a map coefficient or a period for which there is no spectrum */
};

/* How many numbers a record has. */
enum {
    LLUNARETH_HEADER_NUMBERS = 7,
    LLUNARETH_STOREY_NUMBERS = 6,
    LLUNARETH_CASE_NUMBERS = 8,
    LLUNARETH_MEMBER_NUMBERS = 51
};

/* N_D and N_K are counted from -20,000,000: this number stands for 0. A force handed in as it is, is refused by 3. */
enum { LLUNARETH_ZERO_FORCE = 20000000 };

/* A number divided by its scale is the figure in the unit named. */
enum {
    LLUNARETH_RATIO_SCALE = 100000,     /* 1: m and its limit, n_D, the total of n_D */
    LLUNARETH_ROTATION_SCALE = 1000000, /* rad: rotations and their limits, tilts */
    LLUNARETH_FORCE_SCALE = 10          /* kN: forces (N_D and N_K after LLUNARETH_ZERO_FORCE is taken away); kNm: moments */
};

/* The same of sites and spectra (SPECTRUM.md). */
enum {
    LLUNARETH_MAP_SCALE = 100,         /* 1: the map coefficients S_S and S_1 */
    LLUNARETH_FACTOR_SCALE = 1000,     /* 1: F_S and F_1 */
    LLUNARETH_SPECTRUM_SCALE = 100000, /* g: S_DS, S_D1 and the spectrum */
    LLUNARETH_PERIOD_SCALE = 1000      /* s: periods */
};

/* The site classes. */
enum { LLUNARETH_ZA = 1, LLUNARETH_ZB = 2, LLUNARETH_ZC = 3, LLUNARETH_ZD = 4, LLUNARETH_ZE = 5, LLUNARETH_ZF = 6 };

/* The uses of a building: the two groups of table 2.1. */
enum {
    LLUNARETH_USE_DD1 = 1, /* group 1, of DD-1 */
    LLUNARETH_USE_DD2 = 2  /* group 2, of DD-2 */
};

/* What llunareth_determine takes and lends: the longest file and the rows it is read into, and the longest sheet. */
enum {
    LLUNARETH_FILE_MOST = 65536,
    LLUNARETH_STOREY_ROWS = 10,
    LLUNARETH_MEMBER_ROWS = 320,
    LLUNARETH_SHEET_MOST = 128906
};

/* The longest file that llunareth_write writes: 10 storeys of 200 members in four load cases. */
enum { LLUNARETH_WRITE_MOST = 900550 };

/* The B line, and the form. */
struct llunareth_header {
    uint64_t knowledge; /* k, hundredths */
    uint64_t height;    /* H_T, mm */
    uint64_t storeys;   /* n_s */
    uint64_t tilt1;     /* microradians */
    uint64_t tilt2;
    uint64_t count;     /* how many S lines follow */
    uint64_t form;      /* LLUNARETH_OLD_FORM or LLUNARETH_FOUR_CASES */
};

/* The S line. */
struct llunareth_storey {
    uint64_t number;
    uint64_t shears[LLUNARETH_CASES]; /* storey shear of each case, 0.1 kN; 0 in cases that the form lacks */
    uint64_t count;                   /* how many M lines follow */
};

/*
 * What one load case brings to a member: fields 19 to 26 of an M line in the old form, a D line in the form of four cases. Forces are in
 * 0.1 kN, moments in 0.1 kNm.
 */
struct llunareth_load_case {
    uint64_t nk;       /* N_K, counted from -20,000,000 */
    uint64_t me;       /* M_e, moment demand */
    uint64_t mp;       /* M_p, moment capacity */
    uint64_t ve;       /* V_e, shear demand */
    uint64_t vr;       /* V_r, shear capacity */
    uint64_t shear;    /* V, shear from modal analysis */
    uint64_t rotation; /* microradians */
    uint64_t drift;    /* millionths */
};

/*
 * A case that the form lacks, to begin a struct with: struct llunareth_load_case none = LLUNARETH_NO_CASE. Assigned later in C, it has the
 * struct's name before it: row.cases[1] = (struct llunareth_load_case)LLUNARETH_NO_CASE.
 */
#define LLUNARETH_NO_CASE {LLUNARETH_ZERO_FORCE, 0, 0, 0, 0, 0, 0, 0}

/*
 * The M line: a column or a wall. Lengths are in mm. The names are those of CALLS.md, but for long_side and short_side: long and short
 * are words of C.
 */
struct llunareth_member {
    uint64_t number;
    uint64_t long_side;
    uint64_t short_side;
    uint64_t area;         /* A_c, mm2 */
    uint64_t fcm;          /* f_cm, 0.1 MPa */
    uint64_t fctm;         /* f_ctm, 0.01 MPa */
    uint64_t fyw;          /* f_yw, 0.1 MPa */
    uint64_t depth;        /* d */
    uint64_t height;       /* H_w, height of the wall */
    uint64_t spacing;      /* s, hoop spacing */
    uint64_t core;         /* b_k, core width */
    uint64_t hoops;        /* A_sh, hoop area, mm2 */
    uint64_t hooks;        /* 135 degrees at both ends, 0 or 1 */
    uint64_t zone;         /* boundary zone of a wall, 0 or 1 */
    uint64_t strengthened; /* 0 or 1 */
    uint64_t factor;       /* reduction factor, hundredths */
    uint64_t damage;       /* worst damage kind, 0 to 4 */
    uint64_t nd;           /* N_D, 0.1 kN, counted from -20,000,000 */
    uint64_t annex_e;      /* detailed to annex E, 0 or 1; only a strengthened wall reads it */
    struct llunareth_load_case cases[LLUNARETH_CASES];
};

/*
 * The number that stands for a force, N_D or N_K in 0.1 kN. A force below -20,000,000 gives 0; that number, and every other that stands for
 * a force outside its range, is refused by 3.
 */
static inline uint64_t llunareth_force(int64_t tenths)
{
    return tenths < -(int64_t)LLUNARETH_ZERO_FORCE ? 0 : (uint64_t)tenths + LLUNARETH_ZERO_FORCE;
}

/* The force that a number stands for, in 0.1 kN; INT64_MAX where the force is above that. */
static inline int64_t llunareth_signed_force(uint64_t number)
{
    if (number < LLUNARETH_ZERO_FORCE) {
        return -(int64_t)(LLUNARETH_ZERO_FORCE - number);
    }
    number -= LLUNARETH_ZERO_FORCE;
    return number < (uint64_t)INT64_MAX ? (int64_t)number : INT64_MAX;
}

/* What llunareth_read puts out. */
struct llunareth_reading {
    struct llunareth_header header;
    uint64_t storey_rows; /* how many rows are filled */
    uint64_t member_rows;
};

/*
 * What llunareth_judge_member finds in one load case. The call puts out one of these for each case of the form, and gets an array of
 * LLUNARETH_CASES of them in either form.
 */
struct llunareth_member_finding {
    uint64_t member_class; /* LLUNARETH_COLUMN_A to LLUNARETH_WALL_B */
    uint64_t m;            /* hundred-thousandths, as its limit */
    uint64_t m_limit;
    uint64_t rotation;     /* microradians, as its limit */
    uint64_t rotation_limit;
    uint64_t over;          /* past either limit, 0 or 1 */
    uint64_t nd;            /* the axial ratio n_D, hundred-thousandths */
    uint64_t m_dropped;     /* 1 where the m test is dropped, else 0 */
    uint64_t over_m;        /* past the limit of m, 0 or 1; 0 where the test is dropped */
    uint64_t over_rotation; /* past the limit of the rotation, 0 or 1 */
};

/* What llunareth_judge_storey finds in one load case. Forces are in 0.1 kN. */
struct llunareth_storey_case_finding {
    uint64_t axial_total;   /* total of n_D, hundred-thousandths */
    uint64_t members;       /* c */
    uint64_t over_shear;    /* P, total of V over the members that are over */
    uint64_t shear;         /* W, the storey shear */
    uint64_t risky;         /* Risky in this case, 0 or 1 */
    uint64_t walls_suffice; /* 1 where the walls carry 0.40 of the storey shear or more, else 0 */
    uint64_t by_share;      /* Risky as P / W is above the allowed share, 0 or 1 */
    uint64_t by_one_over;   /* Risky as a member is over while the total of n_D is above 65,000 c, 0 or 1 */
    uint64_t by_damage;     /* Risky by damage, 0 or 1 */
    uint64_t allowed_num;   /* the allowed share is this number */
    uint64_t allowed_den;   /* divided by this one */
};

/* What llunareth_judge_storey puts out; in the old form the first case alone. */
struct llunareth_storey_finding {
    uint64_t risky; /* 0 or 1: in some case */
    struct llunareth_storey_case_finding cases[LLUNARETH_CASES];
};

/* What llunareth_judge_building puts out. */
struct llunareth_building_finding {
    uint64_t tilted;    /* 1 where the larger tilt is above 25,000, else 0 */
    uint64_t risky;     /* 0 or 1 */
    uint64_t place;     /* the first Risky storey's place, counted from 1; 0 where none is Risky */
    uint64_t load_case; /* that storey's lowest numbered Risky case, 1 in the old form; 0 where none is Risky */
};

/* What llunareth_site_coefficients puts out. */
struct llunareth_site_finding {
    uint64_t fs;  /* F_S, thousandths */
    uint64_t f1;  /* F_1, thousandths */
    uint64_t sds; /* S_DS, hundred-thousandths */
    uint64_t sd1; /* S_D1, hundred-thousandths */
};

/* Returned where `out` is too short for a call's values; no refusal has this number. */
enum { LLUNARETH_SHORT = 255 };

/* The refusal in what a call returned, 0 for none, and its line, 0 where none is named. */
enum { LLUNARETH_LINE_UNIT = 256 };
#define LLUNARETH_REFUSAL(returned) ((returned) % LLUNARETH_LINE_UNIT)
#define LLUNARETH_LINE(returned) ((returned) / LLUNARETH_LINE_UNIT)

/* Places of the values of llunareth_read: the header's seven numbers, which begin at LLUNARETH_READ_HEADER, and the rows filled. */
enum {
    LLUNARETH_READ_HEADER = 0,
    LLUNARETH_READ_KNOWLEDGE = 0, /* k, hundredths */
    LLUNARETH_READ_HEIGHT = 1,    /* H_T, mm */
    LLUNARETH_READ_STOREYS = 2,   /* n_s */
    LLUNARETH_READ_TILT1 = 3,     /* microradians */
    LLUNARETH_READ_TILT2 = 4,
    LLUNARETH_READ_COUNT = 5,     /* number of S lines */
    LLUNARETH_READ_FORM = 6,      /* LLUNARETH_OLD_FORM or LLUNARETH_FOUR_CASES */
    LLUNARETH_READ_STOREY_ROWS = 7,
    LLUNARETH_READ_MEMBER_ROWS = 8,
    LLUNARETH_READ_VALUES = 9     /* how many values there are */
};

/*
 * Places of the values of llunareth_judge_member in the first case; those of case c, counted from 0, stand LLUNARETH_FINDING_VALUES * c
 * after them. The old form has those of the first case alone.
 */
enum {
    LLUNARETH_MEMBER_CLASS = 0,    /* LLUNARETH_COLUMN_A to LLUNARETH_WALL_B */
    LLUNARETH_MEMBER_M = 1,        /* hundred-thousandths, as its limit */
    LLUNARETH_MEMBER_M_LIMIT = 2,
    LLUNARETH_MEMBER_ROTATION = 3, /* microradians, as its limit */
    LLUNARETH_MEMBER_ROTATION_LIMIT = 4,
    LLUNARETH_MEMBER_OVER = 5,     /* 0 or 1 */
    LLUNARETH_MEMBER_ND = 6,       /* the axial ratio n_D, hundred-thousandths */
    LLUNARETH_MEMBER_M_DROPPED = 7, /* 1 where the m test is dropped, else 0 */
    LLUNARETH_MEMBER_OVER_M = 8,    /* over by m, 0 or 1 */
    LLUNARETH_MEMBER_OVER_ROTATION = 9, /* over by the rotation, 0 or 1 */
    LLUNARETH_FINDING_VALUES = 10,  /* how many values a case has */
    LLUNARETH_MEMBER_VALUES = 40    /* how many values there may be: those of four cases */
};

/*
 * Places of the values of llunareth_judge_storey: whether the storey is Risky, then those of the first case; those of case c, counted from
 * 0, stand LLUNARETH_STOREY_CASE_VALUES * c after them. The old form has those of the first case alone.
 */
enum {
    LLUNARETH_STOREY_RISKY = 0,          /* 0 or 1: in some case */
    LLUNARETH_STOREY_AXIAL_TOTAL = 1,    /* total of n_D, hundred-thousandths */
    LLUNARETH_STOREY_MEMBERS = 2,        /* c */
    LLUNARETH_STOREY_OVER_SHEAR = 3,     /* P, total of V over the members that are over, 0.1 kN */
    LLUNARETH_STOREY_SHEAR = 4,          /* W, the storey shear, 0.1 kN */
    LLUNARETH_STOREY_CASE_RISKY = 5,     /* Risky in this case, 0 or 1 */
    LLUNARETH_STOREY_WALLS_SUFFICE = 6,  /* 1 where the walls carry 0.40 of the storey shear or more, else 0 */
    LLUNARETH_STOREY_BY_SHARE = 7,       /* Risky as P / W is above the allowed share, 0 or 1 */
    LLUNARETH_STOREY_BY_ONE_OVER = 8,    /* Risky as a member is over while the total of n_D is above 65,000 c, 0 or 1 */
    LLUNARETH_STOREY_BY_DAMAGE = 9,      /* Risky by damage, 0 or 1 */
    LLUNARETH_STOREY_ALLOWED_NUM = 10,   /* the allowed share is this number */
    LLUNARETH_STOREY_ALLOWED_DEN = 11,   /* divided by this one */
    LLUNARETH_STOREY_CASE_VALUES = 11,   /* how many values a case has */
    LLUNARETH_STOREY_VALUES = 45         /* how many values there may be: those of four cases */
};

/* Places of the values of llunareth_judge_building. */
enum {
    LLUNARETH_BUILDING_TILTED = 0, /* 1 where the larger tilt is above 25,000, else 0 */
    LLUNARETH_BUILDING_RISKY = 1,  /* 0 or 1 */
    LLUNARETH_BUILDING_PLACE = 2,  /* the first Risky storey's place, counted from 1; 0 where none is Risky */
    LLUNARETH_BUILDING_CASE = 3,   /* that storey's lowest numbered Risky case, 1 in the old form; 0 where none is Risky */
    LLUNARETH_BUILDING_VALUES = 4  /* how many values there are */
};

/* Places of the values of llunareth_report. */
enum {
    LLUNARETH_REPORT_LENGTH = 0, /* of the sheet, bytes */
    LLUNARETH_REPORT_VALUES = 1  /* how many values there are */
};

/* Places of the values of llunareth_write. */
enum {
    LLUNARETH_WRITE_LENGTH = 0, /* of the file, bytes */
    LLUNARETH_WRITE_VALUES = 1  /* how many values there are */
};

/* Places of the values of llunareth_site_coefficients. */
enum {
    LLUNARETH_SITE_FS = 0,    /* thousandths, as F_1 */
    LLUNARETH_SITE_F1 = 1,
    LLUNARETH_SITE_SDS = 2,   /* hundred-thousandths, as S_D1 */
    LLUNARETH_SITE_SD1 = 3,
    LLUNARETH_SITE_VALUES = 4 /* how many values there are */
};

/* Places of the values of llunareth_spectrum. */
enum {
    LLUNARETH_SPECTRUM_VALUE = 0, /* hundred-thousandths */
    LLUNARETH_SPECTRUM_VALUES = 1 /* how many values there are */
};

#if defined(__cplusplus) && __cplusplus >= 201103L
#define LLUNARETH_ASSERT(fact, text) static_assert(fact, text)
#elif defined(__STDC_VERSION__) && __STDC_VERSION__ >= 201112L
#define LLUNARETH_ASSERT(fact, text) _Static_assert(fact, text)
#endif
#ifdef LLUNARETH_ASSERT
LLUNARETH_ASSERT(sizeof(struct llunareth_header) == 8 * LLUNARETH_HEADER_NUMBERS, "a header is 7 numbers");
LLUNARETH_ASSERT(sizeof(struct llunareth_storey) == 8 * LLUNARETH_STOREY_NUMBERS, "a storey row is 6 numbers");
LLUNARETH_ASSERT(sizeof(struct llunareth_load_case) == 8 * LLUNARETH_CASE_NUMBERS, "a load case is 8 numbers");
LLUNARETH_ASSERT(sizeof(struct llunareth_member) == 8 * LLUNARETH_MEMBER_NUMBERS, "a member row is 51 numbers");
LLUNARETH_ASSERT(sizeof(struct llunareth_reading) == 8 * LLUNARETH_READ_VALUES, "a reading is 9 values");
LLUNARETH_ASSERT(sizeof(struct llunareth_member_finding) == 8 * LLUNARETH_FINDING_VALUES, "a member has 10 values in a case");
LLUNARETH_ASSERT(sizeof(struct llunareth_storey_case_finding) == 8 * LLUNARETH_STOREY_CASE_VALUES, "a storey has 11 values in a case");
LLUNARETH_ASSERT(sizeof(struct llunareth_storey_finding) == 8 * LLUNARETH_STOREY_VALUES, "a storey has 45 values");
LLUNARETH_ASSERT(sizeof(struct llunareth_building_finding) == 8 * LLUNARETH_BUILDING_VALUES, "a building has 4 values");
LLUNARETH_ASSERT(sizeof(struct llunareth_site_finding) == 8 * LLUNARETH_SITE_VALUES, "a site has 4 values");
#undef LLUNARETH_ASSERT
#endif

/* The form of the calls as the library has it: LLUNARETH_VERSION, or the library is not for this header. */
uint64_t llunareth_version(void);

/*
 * Reads a survey file. Accepted: the storeys and the members fill the rows from the front, in the order of the file, and the rows after
 * them are left alone. Refused, by 1 to 8 or 12 with the line: all rows are left alone.
 */
uint64_t llunareth_read(const uint8_t *file, size_t file_len, struct llunareth_storey *storeys, size_t storeys_len,
                        struct llunareth_member *members, size_t members_len, uint64_t *out, size_t out_len);

/* The number of a header's refusal: 0 for none, else 3 or 7. */
uint64_t llunareth_header_fault(const uint64_t *values, size_t values_len);

/* The number of the refusal of a storey of a form: 0 for none, else 3. Its members are not looked at. */
uint64_t llunareth_storey_fault(uint64_t form, const uint64_t *values, size_t values_len);

/* The number of the refusal of a member of a form: 0 for none, else 3 or 4. */
uint64_t llunareth_member_fault(uint64_t form, const uint64_t *values, size_t values_len);

/*
 * Judges a member of a form with k and whether its storey meets the 0.40 condition in each case; those of cases that the form lacks are not
 * looked at. Refused by 3, first for k and the form, or 4.
 */
uint64_t llunareth_judge_member(uint64_t k, uint64_t form, bool met1, bool met2, bool met3, bool met4, const uint64_t *values,
                                size_t values_len, uint64_t *out, size_t out_len);

/*
 * Judges a storey of a form, given by its numbers, with k and the rows of its members. Refused by 1 where its count is not the rows; by 3,
 * first for k and the form, 4 or 5.
 */
uint64_t llunareth_judge_storey(uint64_t k, uint64_t form, const uint64_t *storey, size_t storey_len,
                                const struct llunareth_member *members, size_t members_len, uint64_t *out, size_t out_len);

/*
 * Judges a building, given by its header's numbers, the rows of its storeys, and the rows of the members of all of them in survey order.
 * Refused by 1 where a count is not the rows; by 3, 4, 5 or 7.
 */
uint64_t llunareth_judge_building(const uint64_t *header, size_t header_len, const struct llunareth_storey *storeys, size_t storeys_len,
                                  const struct llunareth_member *members, size_t members_len, uint64_t *out, size_t out_len);

/*
 * Writes the sheet of a building, given as for its judgment, from the front of the bytes `sheet`; those after it are left alone. It has 86
 * bytes for each member, 74 for each storey and 26 for the building; in four cases 98 for each member and 86 for each storey in each case.
 * No byte 0 is put after it. Refused as the judgment is, then by 9 where the sheet does not fit: all bytes are left alone.
 */
uint64_t llunareth_report(const uint64_t *header, size_t header_len, const struct llunareth_storey *storeys, size_t storeys_len,
                          const struct llunareth_member *members, size_t members_len, uint8_t *sheet, size_t sheet_len, uint64_t *out,
                          size_t out_len);

/*
 * Writes a survey, given as for its judgment, as a file from the front of the bytes `file`; those after it are left alone. It has 50 bytes,
 * 26 for each storey and 218 for each member, in four cases 50 and 450, at most LLUNARETH_WRITE_MOST; no byte 0 is put after it. Read back
 * into rows that hold it, it gives the same records. Refused as the judgment is, then by 11 where the file does not fit: all bytes are left
 * alone.
 */
uint64_t llunareth_write(const uint64_t *header, size_t header_len, const struct llunareth_storey *storeys, size_t storeys_len,
                         const struct llunareth_member *members, size_t members_len, uint8_t *file, size_t file_len, uint64_t *out,
                         size_t out_len);

/*
 * Puts what the program `determine` prints for a file from the front of the bytes `text` and returns its length; the bytes after it are
 * left alone. It has no refusal: the text is the answer, the sheet or the line E (26 bytes) with refusal and line, 8 and 0 where the file
 * is longer than LLUNARETH_FILE_MOST, 9 and 0 where the sheet does not fit. Where the line E does not fit, it returns 0 and leaves all
 * bytes alone.
 */
size_t llunareth_determine(const uint8_t *file, size_t file_len, uint8_t *text, size_t text_len);

/*
 * The coefficients of a site: its class and its map coefficients S_S and S_1 in hundredths. Refused by 14 where a map coefficient is not 1 to
 * 999, then by 3 where the class is not 1 to 6.
 */
uint64_t llunareth_site_coefficients(uint64_t site_class, uint64_t ss, uint64_t s1, uint64_t *out, size_t out_len);

/*
 * The spectrum of a site class and a use at a period in milliseconds, by the map coefficients of DD-1 and of DD-2 in hundredths; both are taken for
 * either use. Refused by 14 where a map coefficient is not 1 to 999 or the period is above 99,999, then by 3 where the class is not 1 to 6 or
 * the use not 1 or 2.
 */
uint64_t llunareth_spectrum(uint64_t site_class, uint64_t usage, uint64_t dd1_ss, uint64_t dd1_s1, uint64_t dd2_ss, uint64_t dd2_s1,
                            uint64_t period, uint64_t *out, size_t out_len);

#ifdef __cplusplus
}
#endif

#endif
