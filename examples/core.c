/* k-core: the greatest set of vertices of which each has at least K neighbours in the set. Each vertex of it ends with the number of
 * those neighbours, every other one with 0. The graph has each edge in both directions; the values in it do not matter.
 *
 * K is 2, or what the command line says: pregel-cc -D K=3 core.c */
#include "pregel.h"

#ifndef K
#define K 2
#endif
#define OUTSIDE 0

void compute(void)
{
    int64_t neighbours = 0;

    /* Superstep 0 counts the edges. They can be gone through once in a call, so whoever has too few leaves in superstep 1. */
    if (superstep() == 0) {
        EACH_EDGE
            neighbours++;
        set_value(neighbours);
        return;
    }
    neighbours = get_value();
    if (neighbours != OUTSIDE) {
        /* Each message is a neighbour that has left. */
        EACH_MESSAGE
            neighbours--;
        if (neighbours < K) {
            neighbours = OUTSIDE;
            EACH_EDGE
                send(edge_target(), 0);
        }
        set_value(neighbours);
    }
    vote_to_halt();
}
