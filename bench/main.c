/* With an argument the rows are timed, without one checked. */
#include "bench.h"

int main(int count, char **words)
{
    (void)words;
    if (count < 2)
        return check_all() ? 0 : 1;
    time_rows();
    return 0;
}
