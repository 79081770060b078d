/* A stack has 64 KiB, and nothing between it and the next one: the second hart's too many frames lie on the first
 * hart's. */
#include "ldso.h"
#include <stdio.h>

static int ready, done;

/* Takes 4 KiB of stack and more, and fills them. */
static __attribute__((noinline)) long deep(int frames)
{
    volatile long room[512];
    for (int i = 0; i < 512; i++)
        room[i] = -1;
    return (frames > 1 ? deep(frames - 1) : 0) + room[frames];
}

int second(long hart)
{
    (void)hart;
    while (!__atomic_load_n(&ready, __ATOMIC_ACQUIRE))
        ;
    deep(17);
    __atomic_store_n(&done, 1, __ATOMIC_RELEASE);
    return 0;
}

int main(void)
{
    volatile long numbers[64];
    for (int i = 0; i < 64; i++)
        numbers[i] = i;
    __atomic_store_n(&ready, 1, __ATOMIC_RELEASE);
    while (!__atomic_load_n(&done, __ATOMIC_ACQUIRE))
        ;
    int changed = 0;
    for (int i = 0; i < 64; i++)
        changed += numbers[i] != i;
    printf("the first hart's numbers are %s\n", changed ? "overwritten" : "as they were");
    /* Where main would return to is overwritten too. */
    ldso_exit(changed ? 1 : 0);
}
