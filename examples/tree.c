/* Breadth-first tree: each vertex ends with its parent in a tree of shortest paths, counted in edges; the root with its own id; and
 * one that cannot be reached with -1. In the graph file the root has a value of 0 or more, and each other vertex -1.
 *
 * Messages come by rising id of the sender, so the first is that of the least vertex that may be the parent. */
#include "pregel.h"

void compute(void)
{
    int64_t parent = get_value();
    bool reached = false;

    if (superstep() == 0) {
        reached = parent >= 0;
        parent = vertex_id();
    } else if (parent < 0) {
        reached = next_message();
        parent = message_value();
    }
    if (reached) {
        set_value(parent);
        EACH_EDGE
            send(edge_target(), vertex_id());
    }
    vote_to_halt();
}
