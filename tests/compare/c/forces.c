/* Prints the number of each force on standard input, and the force of each number: lines "force F" and "number N". C99 and C++11. */
#include <inttypes.h>
#include <stdio.h>

#include "llunareth.h"

int main(void)
{
    int64_t force;
    uint64_t number;
    while (scanf(" force %" SCNd64, &force) == 1) {
        printf("%" PRIu64 "\n", llunareth_force(force));
    }
    while (scanf(" number %" SCNu64, &number) == 1) {
        printf("%" PRId64 "\n", llunareth_signed_force(number));
    }
    return 0;
}
