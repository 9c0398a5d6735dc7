#include "groups.h"
#include "inputs.h"

enum { ONE_OF = 127 };

void make_all_places(void)
{
    for (size_t i = 0, others = inputs_made(); i < others; i += ONE_OF)
        put_again(i, ALL_PLACES);
}
