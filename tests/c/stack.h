/* How much stack the functions take, held to what simaurkoi.h allows. */
#ifndef STACK_H
#define STACK_H

#include "calls.h"

/* Measures with the sums and the limits, and prints the most that each function took. Whether it is within what is allowed, and a call
   that takes more is seen. */
int stack_suffices(const struct interface *called);

#endif
