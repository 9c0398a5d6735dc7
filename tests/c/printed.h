/* Answers that are written: those that documents print, and of the known sets what docs/COMPARISON.md adds. The oracle and
   the functions called are held to them, each by itself: where both were wrong alike, a comparison of the two would not
   show it. */
#ifndef PRINTED_H
#define PRINTED_H

#include "calls.h"

struct held {
    size_t answers, oracle_differs, called_differs;
};

/* Goes through all inputs of which answers are printed, and prints which differ. */
struct held hold_to_printed(const struct interface *called);

#endif
