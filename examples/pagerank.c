/* PageRank with the damping factor 0.85, in billionths, the average being 1,000,000,000. The values of vertices and edges in the
 * graph file do not matter.
 *
 * A call can go through its edges once: it counts them, or it sends along them. So superstep 0 counts, and the value of a vertex is
 * that number until the last superstep puts the rank in its place. The rank itself is computed from the messages each time. */
#include "pregel.h"

#define AVERAGE 1000000000
#define ROUNDS 30

void compute(void)
{
    if (superstep() == 0) {
        int64_t edges = 0;
        EACH_EDGE
            edges++;
        set_value(edges);
        return;
    }

    int64_t rank = AVERAGE;
    if (superstep() > 1) {
        int64_t sum = 0;
        EACH_MESSAGE
            sum += message_value();
        rank = AVERAGE * 15ll / 100 + sum * 85 / 100;
    }
    if (superstep() <= ROUNDS) {
        int64_t share = divide(rank, get_value());
        EACH_EDGE
            send(edge_target(), share);
    } else {
        set_value(rank);
        vote_to_halt();
    }
}
