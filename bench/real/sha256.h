/* SHA-256 of a buffer (FIPS 180-4). */
typedef unsigned char u8;
typedef unsigned int u32;
typedef unsigned long u64;

void sha256(const u8 *data, u64 size, u8 digest[32]);
