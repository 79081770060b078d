/* Preloaded, this library's malloc and free stand before those of the C library, and say what they are asked. */
#include <stdio.h>
#include <stdlib.h>

static unsigned char room[4096] __attribute__((aligned(16)));
static size_t taken;
static int blocks, freed;

void *malloc(size_t size)
{
    void *place = room + taken;
    taken += (size + 15) & ~(size_t)15;
    printf("block %d of %lu bytes\n", ++blocks, size);
    return place;
}

void free(void *place)
{
    freed++;
    printf("a block at %ld is freed\n", (unsigned char *)place - room);
}

__attribute__((destructor)) static void sum_up(void) { printf("%d blocks, %d freed\n", blocks, freed); }
