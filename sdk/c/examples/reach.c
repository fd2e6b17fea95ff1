/* Reachability: each vertex ends with 1 where a path leads to it from a vertex that begins with 1, and with 0 elsewhere. In the graph
 * file every vertex has the value 1 or 0. */
#include "pregel.h"

void compute(void)
{
    bool news = superstep() == 0 && get_value() == 1;

    if (get_value() == 0) {
        /* One message is enough. */
        news = next_message();
        set_value(news);
    }
    if (news) {
        EACH_EDGE
            send(edge_target(), 1);
    }
    vote_to_halt();
}
