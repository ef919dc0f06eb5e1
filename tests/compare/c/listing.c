/*
 * The listing of docs/CALLS.md, which the tests put into listing.inc: prints a refusal's number; or whether the last storey is Risky, what is
 * found of its last member in the first case, and of the building. C99.
 */
#include <stdlib.h>

#include "llunareth.h"
#include "print.h"

enum { STOREYS = 10, MEMBERS = 2000 };

static uint8_t file[LLUNARETH_WRITE_MOST];
static struct llunareth_storey storeys[STOREYS];
static struct llunareth_member members[MEMBERS];

static void check(uint64_t returned)
{
    const uint64_t refusal = LLUNARETH_REFUSAL(returned);
    if (returned != LLUNARETH_ACCEPTED) {
        print("refused", &refusal, 1);
        exit(1);
    }
}

int main(void)
{
    const size_t length = fread(file, 1, sizeof file, stdin);
#include "listing.inc"
    print("storey", &storey.risky, 1);
    print("member", (const uint64_t *)&member[0], LLUNARETH_FINDING_VALUES);
    print("building", (const uint64_t *)&building, LLUNARETH_BUILDING_VALUES);
    return 0;
}
