/*
 * Buffers to lend, with guards: bytes of a known pattern on one side and a page that cannot be touched on the other, so
 * that a write outside the buffer is seen and a read past that side stops the test.
 */
#ifndef LENT_H
#define LENT_H

#include <stddef.h>
#include <stdint.h>

typedef struct {
    uint8_t *pages;         /* the pages between the two that cannot be touched */
    size_t room;            /* how many bytes they have */
    uint8_t *bytes;         /* the buffer, at the very front or the very end of them */
    size_t length;
    uint8_t *before;        /* what the buffer held when it was lent */
} lent;

/* pages for buffers of up to so many bytes */
void lent_make(lent *l, size_t most);

/* a buffer of so many bytes, at the front or at the end, with guards around it; its contents are to be written next */
uint8_t *lent_at(lent *l, size_t length, int at_end);

/* keeps the buffer's contents, to be held against what it holds after the call */
void lent_keep(lent *l);

/* whether the guards are as they were; whether the buffer is */
int lent_guards(const lent *l);
int lent_same(const lent *l);

#endif
