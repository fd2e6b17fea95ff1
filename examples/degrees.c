/* Degrees: each vertex ends with 100,000,000 for each edge that leads to it, and 1 for each that leads from it. The values in the
 * graph file do not matter. */
#include "pregel.h"

#define EDGE_IN 100000000

void compute(void)
{
    int64_t sum = superstep() == 0 ? 0 : get_value();

    if (superstep() == 0) {
        EACH_EDGE {
            sum++;
            send(edge_target(), EDGE_IN);
        }
    }
    EACH_MESSAGE
        sum += message_value();
    set_value(sum);
    vote_to_halt();
}
