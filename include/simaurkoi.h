/* Simaurkoi for C and C++: can one preemptive processor under earliest deadline first keep every
   deadline of a set of tasks?

   Three functions. They stand in crates/capi/out/libcapi.a, which `rt lib` writes in crates/capi, for
   x86-64 with the System V calling convention. The archive needs memcpy and memset and nothing else.
   What they return, and what they leave in all that they are lent, is proved for every input, as
   long as the caller keeps to "What the caller owes". Trusted is the compiler.

   AN EXAMPLE

       // every 10 ticks, due 2 ticks after it comes, 2 ticks of work;
       // and once, due after 11 ticks, 8 ticks of work
       static const uint8_t set[] = {
           1,  10, 0, 0, 0,  0, 0, 0, 0,  2, 0, 0, 0,  2, 0, 0, 0,
           2,  0, 0, 0, 0,  11, 0, 0, 0,  8, 0, 0, 0
       };
       uint64_t answer[SIMAURKOI_PLACES] = {0};
       uint32_t refusal = simaurkoi_exact(set, sizeof set, answer, SIMAURKOI_PLACES);
       int passes = refusal == 0 && answer[SIMAURKOI_VERDICT] == SIMAURKOI_PASSES;

   THE SET is bytes: no record, or up to 128, one after the other, to the end. A record is a kind byte
   and then whole numbers of ticks, 32 bits each, the least significant byte first.

       kind 1, comes again and again    period, offset, deadline, cost     17 bytes
       kind 2, comes once               offset, deadline, cost             13 bytes

   The period is the least time from one arrival to the next, the offset the time of the first one,
   counted from time 0, the deadline how long after its arrival it must be done, the cost how long the
   processor works on it at most. Each is from 1 to 16,777,216; an offset may also be 0.

   H, the hyperperiod, is the least common multiple of the periods, 1 if there are none. F is the
   largest sum of an offset and its deadline, 0 for no record. The demand of a length is the work that
   arrives and is due within that many ticks from time 0; windows that open later are not looked at.
   The load is above one where the records of kind 1 bring more than H ticks of work in H ticks.

   THE ANSWER takes six places:

       0  refusal    its number; 0 for none
       1  place      where the refusal is; 0 for none
       2  verdict    beside a refusal 0, as the three below: look at the refusal first
       3  interval   a length
       4  demand     the exact demand of that length
       5  count      how many lengths were compared

   The verdicts:

       0  passes           the demand exceeds no length of any size; interval and demand are 0.
                           A set of no record passes too
       1  overloaded       interval is the least length that its demand exceeds
       2  load above one   interval is the first of F, F + H, F + 2 H and so on that its demand
                           exceeds; count is 0
       3  not shown        this k does not show that the set passes: it may pass all the same.
                           interval is the length where the test stopped. If demand is more than
                           interval, the set is overloaded; if not, the exact test tells

   The refusals. A place is counted in bytes of the set, from 0:

        1  the kind of a record is neither 1 nor 2         that byte
        2  the set ends within a record                    the record's kind byte
        3  there is a 129th record                         its kind byte
        4  a period is out of range                        the record's kind byte
        5  an offset is out of range                       the record's kind byte
        6  a deadline is out of range                      the record's kind byte
        7  a cost is out of range                          the record's kind byte
        8  H is above 1,073,741,824                        the kind byte of the first record that
                                                           brings it there
        9  k is not from 1 to 255                          0
       10  out has less room than the written set takes    no place in the set: the bytes needed
       11  is not given

   9 is looked for first. Then the records are checked in their order, each for 1 to 7 in this order,
   and the first refused record decides. Then comes 8 of a test, or 10 of rewriting.

   WHAT A PASS ASSUMES. Proved is that the demand exceeds no length. To mean that EDF keeps every
   deadline, it takes this as well:
   - the records describe the densest arrivals from time 0: a window that opens at time 0 is at least
     as busy as any other of its length. This is not checked yet. A lone record with period 10,
     offset 3, deadline 4 and cost 5 passes: from time 0 there are 7 ticks for its 5 ticks of work.
     But from its arrival there are 4, so it is never on time. With offset 0 it is overloaded;
   - the EDF criterion: where the demand exceeds no length, EDF keeps all deadlines. It is cited from
     the papers (document 001, see docs/SOURCES.md), and not proved here;
   - no blocking, no cost of switching, none of interrupts;
   - no job takes longer than its cost, and none comes sooner than the records say.

   WHAT CHANGES. Each function returns the number of the refusal, 0 for none, and puts the six numbers
   into the first six places of answer. Places past six stay as they were. If answer has fewer than
   six places, the function returns 10 before it looks at anything else, and changes nothing at all.
   No function changes the set. Of out, simaurkoi_rewrite changes the bytes that it writes and no
   other; beside a refusal it changes none.

   WHAT THE CALLER OWES. The bytes of the set may be anything. The pointers and lengths are trusted:
   - during the call set may be read for len bytes, out read and written for room bytes, answer read
     and written for places numbers of 8 bytes;
   - no pointer is NULL, not even beside a length of 0: give the address of something;
   - answer is aligned as a uint64_t must be; set and out may begin at any byte;
   - set, out and answer do not overlap;
   - during the call nobody else writes to any of them, or reads out or answer.

   WHAT A CALL TAKES. But for how many lengths are compared, this is read from the compiled code or
   measured, and not proved.
   Nothing is allocated, nothing is kept from call to call, nothing is called back, no system call is
   made. So several threads may call at once, each with an out and an answer of its own; they may
   share a set.
   Stack: SIMAURKOI_EXACT_STACK bytes, and its sisters below, suffice. A kilobyte and more of each is
   left for memcpy and memset, which are the caller's.
   Time: the exact test compares fewer than 1,107,296,256 lengths. Most sets have far fewer; the
   longest runs take seconds. Superposition compares at most k lengths for each record of kind 1 and
   one for each of kind 2, which takes milliseconds; rewriting takes microseconds. */
#ifndef SIMAURKOI_H
#define SIMAURKOI_H

#include <stddef.h>
#include <stdint.h>

#define SIMAURKOI_PLACES 6       /* what an answer takes */
#define SIMAURKOI_SET_BYTES 2176 /* what the largest set takes */

/* The stack to allow for a call, in bytes. */
#define SIMAURKOI_EXACT_STACK 46080
#define SIMAURKOI_SUPERPOSITION_STACK 14336
#define SIMAURKOI_REWRITE_STACK 4096

/* Which place of the answer is which. */
#define SIMAURKOI_REFUSAL 0
#define SIMAURKOI_PLACE 1
#define SIMAURKOI_VERDICT 2
#define SIMAURKOI_INTERVAL 3
#define SIMAURKOI_DEMAND 4
#define SIMAURKOI_COUNT 5
#define SIMAURKOI_WRITTEN 2 /* in the verdict's place, for simaurkoi_rewrite */

/* The verdicts. */
#define SIMAURKOI_PASSES 0
#define SIMAURKOI_OVERLOADED 1
#define SIMAURKOI_LOAD_ABOVE_ONE 2
#define SIMAURKOI_NOT_SHOWN 3

#ifdef __cplusplus
extern "C" {
#endif

/* The exact test of the set in these len bytes. Verdicts 0, 1 and 2; refusals 1 to 8. */
uint32_t simaurkoi_exact(const uint8_t *set, size_t len, uint64_t *answer, size_t places);

/* The superposition test: it takes the first k due dates of each record of kind 1 exactly, and a
   straight line for those after. If it passes the set, the exact test does. If it answers 3, then
   demand times k + 1 is more than interval times k. Verdicts 0, 2 and 3; refusals 1 to 9. */
uint32_t simaurkoi_superposition(const uint8_t *set, size_t len, uint32_t k, uint64_t *answer,
                                 size_t places);

/* Reads the set and writes it to out, which has room bytes. What is written is what was read, byte
   for byte. The third place of the answer has the number of bytes written, 0 beside a refusal; the
   three after it are 0. Refusals 1 to 7 and 10. */
uint32_t simaurkoi_rewrite(const uint8_t *set, size_t len, uint8_t *out, size_t room,
                           uint64_t *answer, size_t places);

#ifdef __cplusplus
}
#endif

#endif
