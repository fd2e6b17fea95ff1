/* Label propagation by majority: in each of ten rounds a vertex takes the label that most of its neighbours have. It keeps its own
 * where no other has more; else, of several, it takes the least. In the graph file a vertex's value is its label, 0 to 7, or -1 for
 * none; each edge is there in both directions.
 *
 * A program has no arrays at computed addresses, so `counts` is eight variables, and UNROLL and AT write out the choice among them. */
#include "pregel.h"

#define LABELS 8
#define ROUNDS 10

void compute(void)
{
    int64_t label = get_value();
    int32_t counts[LABELS] = {0};

    EACH_MESSAGE {
        int64_t heard = message_value();
        UNROLL for (int i = 0; i < LABELS; i++)
            counts[i] += heard == i;
    }
    int32_t most = AT(counts, label);
    UNROLL for (int i = 0; i < LABELS; i++) {
        if (counts[i] > most) {
            most = counts[i];
            label = i;
        }
    }
    set_value(label);
    if (superstep() == ROUNDS) {
        vote_to_halt();
        return;
    }
    if (label >= 0) {
        EACH_EDGE
            send(edge_target(), label);
    }
}
