#include "program.h"

/* So many rounds at random, on images of at most `limit` bytes; the call that is asked for is told in words. */
void program(uint32_t rounds, uint32_t limit, uint32_t asked)
{
    must(limit >= 1024 && limit <= IMAGE_BYTES);
    begin_calls(asked);
    rows();
    tickets();
    driven();
    at_random(rounds, limit);
    end_calls();
    platform_exit(0);
}
