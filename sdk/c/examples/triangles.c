/* Triangles, in a graph with ids from 0 to 63: each vertex ends with the number of triangles that it is a corner of. The graph has each
 * edge in both directions, once, and no edge from a vertex to itself.
 *
 * A vertex can't go through its edges once for each message. So its neighbours are a set of 64 bits, which it sends to all of them. */
#include "pregel.h"

void compute(void)
{
    if (superstep() == 0) {
        uint64_t neighbours = 0;
        EACH_EDGE
            neighbours |= 1ull << edge_target();
        set_value(neighbours);
    } else if (superstep() == 1) {
        EACH_EDGE
            send(edge_target(), get_value());
    } else {
        uint64_t common = 0;
        EACH_MESSAGE
            common += __builtin_popcountll(message_value() & get_value());
        /* Each triangle is met by both of its other corners. */
        set_value(common / 2);
        vote_to_halt();
    }
}
