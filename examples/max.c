/* Greatest value: each vertex ends with the greatest of its own value and those of all vertices from which a path leads to it. */
#include "pregel.h"

void compute(void)
{
    int64_t greatest = get_value();
    bool news = superstep() == 0;

    EACH_MESSAGE {
        if (message_value() > greatest) {
            greatest = message_value();
            news = true;
        }
    }
    /* Only what is new is kept and passed on, so the job ends. */
    if (news) {
        set_value(greatest);
        EACH_EDGE
            send(edge_target(), greatest);
    }
    vote_to_halt();
}
