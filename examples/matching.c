/* Bipartite matching, as in the Pregel paper (Malewicz et al., SIGMOD 2010, 5.3): a matching to which no edge can be added. Each
 * vertex ends with the id of its partner; one without a partner keeps the value that it begins with.
 *
 * In the graph file a vertex on the left has the value -1 and one on the right -2, and edges lead from left to right. Four supersteps
 * make a round:
 *
 *     0  a left vertex without a partner sends a request to all its neighbours
 *     1  a right vertex without a partner accepts one of those requests, and refuses the others
 *     2  a left vertex that was accepted takes one of those, and says so
 *     3  a right vertex that was taken notes its partner
 *
 * The paper draws lots where there is a choice. Here the first message decides, which is that of the least id, so that a job has the
 * same answer each time. */
#include "pregel.h"

#define LEFT -1
#define RIGHT -2
#define REFUSED -1

void compute(void)
{
    int64_t value = get_value();
    int64_t phase = superstep() & 3;

    if (phase == 0 && value == LEFT) {
        EACH_EDGE
            send(edge_target(), vertex_id());
        /* An answer wakes it. Where all neighbours have partners none comes. */
    }
    if (phase == 1 && value == RIGHT) {
        int64_t answer = vertex_id();
        EACH_MESSAGE {
            send(message_value(), answer);
            answer = REFUSED;
        }
    }
    if (phase == 2 && value == LEFT) {
        int64_t partner = REFUSED;
        EACH_MESSAGE {
            if (partner == REFUSED)
                partner = message_value();
        }
        if (partner != REFUSED) {
            set_value(partner);
            send(partner, vertex_id());
            value = partner;
        }
    }
    if (phase == 3 && value == RIGHT) {
        EACH_MESSAGE
            set_value(message_value());
    }
    /* A left vertex that was refused stays active until the next round. */
    if (phase < 2 || value != LEFT)
        vote_to_halt();
}
