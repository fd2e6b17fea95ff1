/* Greedy colouring: each vertex ends with a colour from 0 that no neighbour has. Of the vertices without a colour, those that have a
 * greater id than all such neighbours take the least colour that is free. The graph has each edge in both directions.
 *
 * Until then the value of a vertex is the set of its neighbours' colours, as bits, turned over so that it is below 0. There are 62
 * colours; a vertex that finds none free keeps a value below 0. */
#include "pregel.h"

#define COLOURS 62

void compute(void)
{
    if (superstep() == 0)
        set_value(~0ll);
    if (get_value() >= 0) {
        vote_to_halt();
        return;
    }
    uint64_t used = ~get_value();
    if (superstep() % 2 == 0) {
        /* Each message is the colour of a neighbour. */
        EACH_MESSAGE
            used |= 1ull << message_value();
        set_value(~used);
        EACH_EDGE
            send(edge_target(), vertex_id());
    } else {
        /* Each message is the id of a neighbour without a colour. */
        bool first = true;
        EACH_MESSAGE
            first &= message_value() <= vertex_id();
        int64_t colour = __builtin_ctzll(~used);
        if (first && colour < COLOURS) {
            set_value(colour);
            EACH_EDGE
                send(edge_target(), colour);
        }
    }
}
