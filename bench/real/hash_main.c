/* Writes the SHA-256 of 256 KiB of bytes, hashed ROUNDS times over. */
#include "sha256.h"
#include "start.h"

#ifndef ROUNDS
#define ROUNDS 4
#endif

static u8 data[1 << 18];

void _start(void)
{
    u8 digest[32] = { 0 };
    u32 seed = 1;
    for (u64 i = 0; i < sizeof data; i++) {
        seed = seed * 1664525 + 1013904223;
        data[i] = (u8)(seed >> 24);
    }
    for (int round = 0; round < ROUNDS; round++) {
        for (int i = 0; i < 32; i++)
            data[i] = digest[i];
        sha256(data, sizeof data, digest);
    }
    put_hex(digest, 32);
    leave(0);
}
