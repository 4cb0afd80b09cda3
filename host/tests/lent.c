/* Buffers with guards: see lent.h. */
#include <stdlib.h>
#include <stdio.h>
#include <string.h>
#include <sys/mman.h>
#include <unistd.h>
#include "lent.h"

static uint8_t guard_byte(size_t at)
{
    return (uint8_t)(0xA5 ^ (at * 31));
}

void lent_make(lent *l, size_t most)
{
    size_t page = (size_t)sysconf(_SC_PAGESIZE);
    uint8_t *all;
    l->room = (most + 64 + page - 1) / page * page;
    all = mmap(NULL, l->room + 2 * page, PROT_NONE, MAP_PRIVATE | MAP_ANONYMOUS, -1, 0);
    if (all == MAP_FAILED || mprotect(all + page, l->room, PROT_READ | PROT_WRITE) != 0) {
        perror("no pages");
        exit(2);
    }
    l->pages = all + page;
    l->before = malloc(l->room);
    if (l->before == NULL) {
        perror("no memory");
        exit(2);
    }
    lent_at(l, 0, 0);
}

uint8_t *lent_at(lent *l, size_t length, int at_end)
{
    size_t i;
    l->length = length;
    l->bytes = at_end ? l->pages + l->room - length : l->pages;
    for (i = 0; i < l->room; i++)
        l->pages[i] = guard_byte(i);
    return l->bytes;
}

void lent_keep(lent *l)
{
    if (l->length != 0)
        memcpy(l->before, l->bytes, l->length);
}

int lent_guards(const lent *l)
{
    size_t i, from = (size_t)(l->bytes - l->pages), to = from + l->length;
    for (i = 0; i < l->room; i++)
        if ((i < from || i >= to) && l->pages[i] != guard_byte(i))
            return 0;
    return 1;
}

int lent_same(const lent *l)
{
    return l->length == 0 || memcmp(l->before, l->bytes, l->length) == 0;
}
