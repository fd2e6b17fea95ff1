/* Maximal independent set, by Luby's algorithm: each vertex ends with 1 where it is in the set and with 0 where it is not. No two
 * vertices of the set are neighbours, and each other vertex has a neighbour in it. The graph has each edge in both directions; the
 * values in it do not matter.
 *
 * Two supersteps make a round. In the even one each undecided vertex sends its priority; in the odd one those that have the least
 * among their neighbours join the set and say so, and who hears that in the next even superstep is out. The priority is a hash of
 * the id, so that long paths of rising ids are no worse than others. */
#include "pregel.h"

#define UNDECIDED -1
#define OUT 0
#define IN 1

/* Mixes the bits of an id. Two ids never have the same priority. */
static int64_t priority(int64_t id)
{
    uint64_t x = id;
    x = (x ^ x >> 31) * 0x9e3779b97f4a7c15;
    x = (x ^ x >> 29) * 0xbf58476d1ce4e5b9;
    return x ^ x >> 32;
}

void compute(void)
{
    if (superstep() == 0)
        set_value(UNDECIDED);
    if (get_value() == UNDECIDED) {
        int64_t mine = priority(vertex_id());
        if (superstep() % 2 == 0) {
            bool beside = false;
            EACH_MESSAGE
                beside = true;
            if (!beside) {
                EACH_EDGE
                    send(edge_target(), mine);
                return;
            }
            set_value(OUT);
        } else {
            bool first = true;
            EACH_MESSAGE
                first &= mine <= message_value();
            if (!first)
                return;
            set_value(IN);
            EACH_EDGE
                send(edge_target(), IN);
        }
    }
    vote_to_halt();
}
