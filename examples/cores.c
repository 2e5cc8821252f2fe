/* A room on three cores from C, with one call: each core's deadlines, or why not. The gate runs it.
 *   cc -std=c11 -Iinclude examples/cores.c target/staticlib/libcharoktan.a */
#include "charoktan.h"

#include <stdio.h>

int main(void)
{
    /* job, subtask, release, execution, deadline, critical: one core's stages after another's */
    const charoktan_subjob room[] = {
        {1, 1, 0, 20, 360, 0}, {1, 1, 0, 40, 90, 0}, {2, 1, 10, 60, 90, 0}, {2, 1, 10, 25, 380, 0}};
    enum { COUNT = sizeof room / sizeof room[0], CORES = 3 };
    uint32_t lengths[CORES] = {1, 2, 1}; /* how many stages each core has */
    uint32_t deadlines[COUNT], numbers[CORES], places[CORES];

    for (int turn = 0; turn < 2; ++turn) {
        uint32_t returned =
            charoktan_room((const uint8_t *)room, sizeof room, (const uint8_t *)lengths,
                           sizeof lengths, (uint8_t *)deadlines, sizeof deadlines,
                           (uint8_t *)numbers, sizeof numbers, (uint8_t *)places, sizeof places);
        if (returned != CHAROKTAN_ACCEPTED) /* then no number was written either */
            printf("no core: %s\n", charoktan_refusal_text(charoktan_number(returned)));
        else /* each core has its own number */
            for (unsigned core = 0, at = 0; core < CORES; at += lengths[core++])
                if (numbers[core] != CHAROKTAN_ACCEPTED)
                    printf("core %u: refused by number %u at place %u: %s\n", core,
                           (unsigned)numbers[core], (unsigned)places[core],
                           charoktan_refusal_text(numbers[core]));
                else
                    for (unsigned i = at; i < at + lengths[core]; ++i)
                        printf("core %u: door %u, stage %u: done by tick %u\n", core,
                               (unsigned)room[i].job, (unsigned)room[i].subtask,
                               (unsigned)deadlines[i]);
        lengths[2] = 2; /* and once more with a stage that is not there */
    }
    return 0;
}
