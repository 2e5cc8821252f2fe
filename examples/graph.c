/* Critical times from C: a door whose stages fork and join, and what each must leave time for. They
 * go into the `critical` of the sub-jobs that examples/room.c hands over. The gate runs it.
 *   cc -std=c11 -Iinclude examples/graph.c target/staticlib/libcharoktan.a */
#include "charoktan.h"

#include <stdio.h>

int main(void)
{
    enum { STAGES = 4 };
    const char *const names[STAGES] = {"fetch", "pipeline build", "unpack", "upload"};
    const uint32_t executions[STAGES] = {20, 30, 15, 10};
    /* before, after, hop: build and unpack follow the fetch, and the upload both of them; and for
     * the second turn a fetch that waits for the upload */
    const charoktan_arc arcs[] = {{0, 1, 0}, {0, 2, 0}, {1, 3, 5}, {2, 3, 0}, {3, 0, 0}};
    uint32_t critical[STAGES];

    for (size_t count = 4; count <= 5; ++count) {
        uint32_t returned = charoktan_critical((const uint8_t *)executions, sizeof executions,
                                               (const uint8_t *)arcs, count * sizeof arcs[0],
                                               (uint8_t *)critical, sizeof critical);
        if (returned != CHAROKTAN_ACCEPTED)
            printf("refused: %s\n", charoktan_refusal_text(charoktan_number(returned)));
        else
            for (int i = 0; i < STAGES; ++i)
                printf("after %s: %u ticks\n", names[i], (unsigned)critical[i]);
    }
    return 0;
}
