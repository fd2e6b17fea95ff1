/* Histogram: each vertex ends with how many vertices of the graph have as many edges as itself, counted in six bins: 0, 1, 2 or 3,
 * 4 to 7, 8 to 15, and 16 or more. A sum of 64 bits holds three counts of 20 bits, so two aggregators are enough. */
#include "pregel.h"

void compute(void)
{
    if (superstep() == 0) {
        uint64_t edges = 0;
        EACH_EDGE
            edges++;
        int64_t bin = edges ? 64 - __builtin_clzll(edges) : 0;
        bin = bin > 5 ? 5 : bin;
        set_value(bin);
        if (bin < 3)
            aggregate(0, 1ll << 20 * bin);
        else
            aggregate(1, 1ll << 20 * (bin - 3));
    } else {
        int64_t bin = get_value();
        int64_t count = bin < 3 ? aggregated(0) >> 20 * bin : aggregated(1) >> 20 * (bin - 3);
        set_value(count & 0xfffff);
        vote_to_halt();
    }
}
