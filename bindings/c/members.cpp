// members < FILE: the table of members.c, in C++11.
//
// g++ -std=c++11 members.cpp $(pkg-config --cflags --libs llunareth) -o members
#include <cinttypes>
#include <cstdio>
#include <cstdlib>
#include <vector>

#include "llunareth.h"

namespace {

// By the numbers of the classes.
const char *const classes[] = {"", "column A", "column B", "column C", "wall A", "wall B"};

// A struct as the numbers that a call takes, and as those that it puts out.
template <typename T> const uint64_t *taken(const T &record) { return reinterpret_cast<const uint64_t *>(&record); }
template <typename T> uint64_t *put(T &finding) { return reinterpret_cast<uint64_t *>(&finding); }

// Ends the program with 2 where something does not hold.
void expect(bool holds, const char *otherwise)
{
    if (!holds) {
        std::fprintf(stderr, "members: %s\n", otherwise);
        std::exit(2);
    }
}

// Ends the program with a status, once all that it printed is written.
void end(int status)
{
    expect(std::fflush(stdout) == 0 && !std::ferror(stdout), "standard output cannot be written");
    std::exit(status);
}

// Ends the program where a call refused.
void check(uint64_t returned)
{
    if (returned != LLUNARETH_ACCEPTED) {
        std::printf("refused: %" PRIu64 " at line %" PRIu64 "\n", LLUNARETH_REFUSAL(returned), LLUNARETH_LINE(returned));
        end(1);
    }
}

double scaled(uint64_t number, uint64_t scale) { return static_cast<double>(number) / static_cast<double>(scale); }

void print_row(uint64_t storey, uint64_t member, int load_case, const llunareth_member_finding &f)
{
    const uint64_t ratio = LLUNARETH_RATIO_SCALE, radian = LLUNARETH_ROTATION_SCALE;
    std::printf("%7" PRIu64 " %7" PRIu64 " %4d  %-8s %9.5f %9.5f %9.6f %9.6f %5s\n", storey, member, load_case, classes[f.member_class],
                scaled(f.m, ratio), scaled(f.m_limit, ratio), scaled(f.rotation, radian), scaled(f.rotation_limit, radian),
                f.over ? "yes" : "no");
}

// Judges a storey, then each of its members with the storey's 0.40 condition.
void print_storey(const llunareth_header &header, const llunareth_storey &storey, const llunareth_member *own)
{
    const int cases = header.form == LLUNARETH_FOUR_CASES ? LLUNARETH_CASES : 1;
    llunareth_storey_finding found = {};
    llunareth_member_finding member[LLUNARETH_CASES];
    check(llunareth_judge_storey(header.knowledge, header.form, taken(storey), LLUNARETH_STOREY_NUMBERS, own, storey.count, put(found),
                                 LLUNARETH_STOREY_VALUES));
    for (uint64_t i = 0; i < storey.count; i++) {
        check(llunareth_judge_member(header.knowledge, header.form, found.cases[0].walls_suffice, found.cases[1].walls_suffice,
                                     found.cases[2].walls_suffice, found.cases[3].walls_suffice, taken(own[i]), LLUNARETH_MEMBER_NUMBERS,
                                     put(member), LLUNARETH_MEMBER_VALUES));
        for (int c = 0; c < cases; c++) {
            print_row(storey.number, own[i].number, c + 1, member[c]);
        }
    }
}

} // namespace

int main()
{
    std::vector<uint8_t> file(LLUNARETH_WRITE_MOST + 1); // one byte more than the longest file, so that a longer one is refused
    std::vector<llunareth_storey> storeys(10);
    std::vector<llunareth_member> members(2000);
    llunareth_reading read;
    const llunareth_member *own = members.data();
    const size_t length = std::fread(file.data(), 1, file.size(), stdin);
    expect(!std::ferror(stdin), "standard input cannot be read");
    expect(llunareth_version() == LLUNARETH_VERSION, "the library has another form of the calls");
    check(llunareth_read(file.data(), length, storeys.data(), storeys.size(), members.data(), members.size(), put(read),
                         LLUNARETH_READ_VALUES));
    std::puts(" storey  member case  class            m     limit  rotation     limit  over");
    for (size_t i = 0; i < read.storey_rows; i++) {
        print_storey(read.header, storeys[i], own);
        own += storeys[i].count;
    }
    end(0);
}
