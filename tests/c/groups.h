/* The groups of inputs, each made by a file of its own. */
#ifndef GROUPS_H
#define GROUPS_H

#include <stddef.h>
#include <stdint.h>

/* Document 01's sums for the blackboard. */
void make_sums(void);

/* The edges of document 01's limits. */
void make_limits(void);

/* Values at those edges, in range and out of it. */
enum { EDGES = 8 };
extern const uint32_t edges[EDGES];

/* Drawn sets, and drawn sets with some damage: each input in turn from one stream of numbers. */
void make_legal(void);
void make_damaged(void);

/* Drawn sets and damaged ones by another generator: each input from a seed of its own. */
void make_generated(void);

/* Takes a file's bytes as an example, or as one of the sets that people know: 0 where it cannot be read or has more than
   MOST_INPUT_BYTES. */
int make_example(const char *name);

/* Some of the inputs made so far, to be called with each number of places. */
void make_all_places(void);

#endif
