/* Sorts 65,536 words ROUNDS times, and writes the words in the middle and at both ends. */
#include "sort.h"
#include "start.h"

#ifndef ROUNDS
#define ROUNDS 4
#endif

static word words[1 << 16];

void _start(void)
{
    const word count = sizeof words / sizeof *words;
    word seed = 1;
    for (int round = 0; round < ROUNDS; round++) {
        for (word i = 0; i < count; i++) {
            seed = seed * 6364136223846793005 + 1442695040888963407;
            words[i] = seed >> 11;
        }
        sort(words, count);
        for (word i = 1; i < count; i++)
            if (words[i - 1] > words[i])
                leave(1);
    }
    put_hex((const unsigned char *)&words[0], 8);
    put_hex((const unsigned char *)&words[count / 2], 8);
    put_hex((const unsigned char *)&words[count - 1], 8);
    leave(0);
}
