/* The program of crates/hash_bench in C: the same loop over the bits, with a mask for each. */
#include <stdint.h>
#include <stdio.h>

static const uint8_t DEFAULT_KEY[40] = {
    0x6d, 0x5a, 0x56, 0xda, 0x25, 0x5b, 0x0e, 0xc2, 0x41, 0x67, 0x25, 0x3d, 0x43, 0xa3,
    0x8f, 0xb0, 0xd0, 0xca, 0x2b, 0xcb, 0xae, 0x7b, 0x30, 0xb4, 0x77, 0xcb, 0x2d, 0xa3,
    0x80, 0x30, 0xf2, 0x0c, 0x6a, 0x42, 0xb7, 0x3b, 0xbe, 0xac, 0x01, 0xfa,
};

static uint32_t byte_hash(const uint8_t *key, uint8_t byte)
{
    uint64_t window = (uint64_t)key[0] << 32 | (uint64_t)key[1] << 24 | (uint64_t)key[2] << 16
        | (uint64_t)key[3] << 8 | key[4];
    uint32_t hash = 0;
    for (unsigned i = 0; i < 8; i++)
        hash ^= (uint32_t)(window >> (8 - i)) & -(uint32_t)(byte >> (7 - i) & 1);
    return hash;
}

static uint32_t toeplitz(const uint8_t *key, const uint8_t *input, size_t length)
{
    uint32_t hash = 0;
    for (size_t i = 0; i < length; i++)
        hash ^= byte_hash(key + i, input[i]);
    return hash;
}

int main(void)
{
    uint32_t count;
    while (scanf("%u", &count) == 1) {
        uint64_t state = 0;
        uint32_t all = 0;
        uint8_t keys[4][40];
        for (unsigned port = 0; port < 4; port++)
            for (int i = 0; i < 40; i++)
                keys[port][i] = DEFAULT_KEY[i] ^ (uint8_t)(count % 64 + 64 * port);
        for (uint32_t k = 0; k < count; k++) {
            uint8_t input[12];
            state = state * 0x5851f42d4c957f2dull + 0x14057b7ef767814full;
            for (int i = 0; i < 12; i++)
                input[i] = (uint8_t)(state >> (56 - 8 * (i % 8)));
            all ^= toeplitz(keys[state >> 62], input, 12);
        }
        printf("%08x\n", all);
    }
    return 0;
}
