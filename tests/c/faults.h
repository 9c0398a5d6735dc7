/* Wrong versions of the interface, each of which breaks one promise of simaurkoi.h: the test has to see them all. */
#ifndef FAULTS_H
#define FAULTS_H

#include "calls.h"

size_t faults_count(void);
const char *fault_name(size_t number);

/* The interface with this fault planted. There is one at a time. */
const struct interface *with_fault(size_t number);

#endif
