/* What the tests over the C boundary share. */
#ifndef TESTS_H
#define TESTS_H

#include "lent.h"
#include "second.h"

/* random numbers; one below n */
uint64_t random64(void);
size_t below(size_t n);

/* a number that is at, just past or far past a side */
size_t an_outside(size_t side);

/* counts a check, and says which failed */
void expect(int held, const char *what, size_t where);

/* what the calls of one case are lent */
extern lent map, table, legs;

/* every call that takes a floor, on one at random, sound or damaged */
void try_floor(size_t w, size_t h, int damaged, size_t i);

#endif
