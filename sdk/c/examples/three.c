/* Three greatest: each vertex ends with the sum of the three greatest values of the vertices from which an edge leads to it, of fewer
 * where there are not three. No value is below 0. */
#include "pregel.h"

void compute(void)
{
    if (superstep() == 0) {
        EACH_EDGE
            send(edge_target(), get_value());
    } else {
        int64_t first = 0, second = 0, third = 0;
        EACH_MESSAGE {
            int64_t value = message_value();
            if (value > first) {
                third = second;
                second = first;
                first = value;
            } else if (value > second) {
                third = second;
                second = value;
            } else if (value > third) {
                third = value;
            }
        }
        set_value(first + second + third);
        vote_to_halt();
    }
}
