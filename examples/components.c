/* Connected components: each vertex ends with the least id of its component. The graph has each edge in both directions; the values
 * of its vertices and edges do not matter. */
#include "pregel.h"

void compute(void)
{
    bool news = superstep() == 0;
    int64_t least = news ? vertex_id() : get_value();

    EACH_MESSAGE {
        if (message_value() < least) {
            least = message_value();
            news = true;
        }
    }
    if (news) {
        set_value(least);
        EACH_EDGE
            send(edge_target(), least);
    }
    vote_to_halt();
}
