/* PageRank that ends by itself: it stops in the superstep in which the ranks have changed by less than a millionth of the average,
 * taken over all vertices. An aggregator finds that out: each vertex contributes by how much its rank has changed, and in the next
 * superstep every vertex reads the same sum, so all stop at once.
 *
 * Ranks are in billionths, the average being 1,000,000,000. The value of each edge in the graph file is 2^32 divided by the number
 * of edges from the same vertex, as in pagerank.txt. The values of vertices do not matter. */
#include "pregel.h"

#define AVERAGE 1000000000
#define TOLERANCE 1000

/* Returns rank * part / 2^32, rounded down. The halves of the rank are multiplied apart, so that no product passes 64 bits. */
static int64_t share(uint64_t rank, uint64_t part)
{
    return (rank >> 32) * part + ((rank & 0xffffffff) * part >> 32);
}

void compute(void)
{
    int64_t rank = AVERAGE;

    if (superstep() > 0) {
        /* In superstep 1 nothing was contributed yet. */
        if (superstep() > 1 && aggregated(AGGREGATOR_SUM) <= TOLERANCE * num_vertices()) {
            vote_to_halt();
            return;
        }
        int64_t sum = 0;
        EACH_MESSAGE
            sum += message_value();
        rank = AVERAGE * 15ll / 100 + sum * 85 / 100;
        int64_t change = rank - get_value();
        aggregate(AGGREGATOR_SUM, change < 0 ? -change : change);
    }
    set_value(rank);
    EACH_EDGE
        send(edge_target(), share(rank, edge_value()));
}
