/* A room of two doors from C: a deadline for each stage, or why not. The gate runs it.
 *   cc -std=c11 -Iinclude examples/room.c target/staticlib/libcharoktan.a */
#include "charoktan.h"

#include <stdio.h>

int main(void)
{
    /* job, subtask, release, execution, deadline, critical: two stages each of doors 1 and 2 */
    charoktan_subjob room[] = {{1, 1, 0, 20, 360, 30},
                               {1, 2, 90, 30, 360, 0},
                               {2, 1, 10, 25, 380, 20},
                               {2, 2, 100, 20, 380, 0}};
    enum { COUNT = sizeof room / sizeof room[0] };
    uint32_t deadlines[COUNT];

    for (int turn = 0; turn < 2; ++turn) {
        uint32_t returned = charoktan_assign((const uint8_t *)room, sizeof room,
                                             (uint8_t *)deadlines, sizeof deadlines);
        if (returned == CHAROKTAN_ACCEPTED)
            for (int i = 0; i < COUNT; ++i)
                printf("door %u, stage %u: done by tick %u\n", (unsigned)room[i].job,
                       (unsigned)room[i].subtask, (unsigned)deadlines[i]);
        else
            printf("refused by number %u at place %u: %s\n", (unsigned)charoktan_number(returned),
                   (unsigned)charoktan_place(returned),
                   charoktan_refusal_text(charoktan_number(returned)));
        room[3].deadline = 119; /* and once more with door 2 open too soon */
    }
    return 0;
}
