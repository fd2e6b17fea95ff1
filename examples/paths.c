/* Shortest paths: each vertex ends with the length of the shortest path from the source, or with -1 where none leads to it. In the
 * graph file the source has the value 0 and each other vertex -1; an edge's value is its length, 0 or more. */
#include "pregel.h"

void compute(void)
{
    int64_t least = get_value();
    bool news = superstep() == 0 && least == 0;

    EACH_MESSAGE {
        int64_t length = message_value();
        if (least < 0 || length < least) {
            least = length;
            news = true;
        }
    }
    /* A shorter path to here makes one to each neighbour, which may be the shortest there. */
    if (news) {
        set_value(least);
        EACH_EDGE
            send(edge_target(), least + edge_value());
    }
    vote_to_halt();
}
