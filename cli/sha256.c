/*
 * sha256.c - the SHA-256 of some bytes, after FIPS 180-4: the constants of its section 4.2.2, the rounds of 6.2.2.
 */
#include "sha256.h"

#include <stdio.h>
#include <string.h>

enum { BLOCK = 64, ROUNDS = 64, LENGTH_FIELD = 8 };

static const uint32_t constants[ROUNDS] = {
    0x428a2f98, 0x71374491, 0xb5c0fbcf, 0xe9b5dba5, 0x3956c25b, 0x59f111f1, 0x923f82a4, 0xab1c5ed5, 0xd807aa98, 0x12835b01, 0x243185be,
    0x550c7dc3, 0x72be5d74, 0x80deb1fe, 0x9bdc06a7, 0xc19bf174, 0xe49b69c1, 0xefbe4786, 0x0fc19dc6, 0x240ca1cc, 0x2de92c6f, 0x4a7484aa,
    0x5cb0a9dc, 0x76f988da, 0x983e5152, 0xa831c66d, 0xb00327c8, 0xbf597fc7, 0xc6e00bf3, 0xd5a79147, 0x06ca6351, 0x14292967, 0x27b70a85,
    0x2e1b2138, 0x4d2c6dfc, 0x53380d13, 0x650a7354, 0x766a0abb, 0x81c2c92e, 0x92722c85, 0xa2bfe8a1, 0xa81a664b, 0xc24b8b70, 0xc76c51a3,
    0xd192e819, 0xd6990624, 0xf40e3585, 0x106aa070, 0x19a4c116, 0x1e376c08, 0x2748774c, 0x34b0bcb5, 0x391c0cb3, 0x4ed8aa4a, 0x5b9cca4f,
    0x682e6ff3, 0x748f82ee, 0x78a5636f, 0x84c87814, 0x8cc70208, 0x90befffa, 0xa4506ceb, 0xbef9a3f7, 0xc67178f2};

static uint32_t turned(uint32_t word, unsigned by)
{
    return word >> by | word << (32 - by);
}

/* The block's 16 words, the higher byte first, and the 48 that follow from them. */
static void schedule(const uint8_t *block, uint32_t word[ROUNDS])
{
    for (unsigned i = 0; i < 16; i++) {
        const uint8_t *at = block + 4 * i;
        word[i] = (uint32_t)at[0] << 24 | (uint32_t)at[1] << 16 | (uint32_t)at[2] << 8 | at[3];
    }
    for (unsigned i = 16; i < ROUNDS; i++) {
        uint32_t a = word[i - 15], b = word[i - 2];
        uint32_t low = turned(a, 7) ^ turned(a, 18) ^ a >> 3;
        uint32_t high = turned(b, 17) ^ turned(b, 19) ^ b >> 10;
        word[i] = high + word[i - 7] + low + word[i - 16];
    }
}

static void take_block(uint32_t sum[8], const uint8_t *block)
{
    uint32_t word[ROUNDS], s[8];
    schedule(block, word);
    memcpy(s, sum, sizeof s);
    for (unsigned i = 0; i < ROUNDS; i++) {
        uint32_t choice = (s[4] & s[5]) ^ (~s[4] & s[6]);
        uint32_t majority = (s[0] & s[1]) ^ (s[0] & s[2]) ^ (s[1] & s[2]);
        uint32_t one = s[7] + (turned(s[4], 6) ^ turned(s[4], 11) ^ turned(s[4], 25)) + choice + constants[i] + word[i];
        uint32_t two = (turned(s[0], 2) ^ turned(s[0], 13) ^ turned(s[0], 22)) + majority;
        memmove(s + 1, s, 7 * sizeof *s);
        s[4] += one;
        s[0] = one + two;
    }
    for (unsigned i = 0; i < 8; i++)
        sum[i] += s[i];
}

/* The bytes behind the last whole block, a bit 1, zeros, and the number of bits in eight bytes: one block or two. */
static void take_rest(uint32_t sum[8], const uint8_t *rest, size_t length)
{
    uint8_t last[2 * BLOCK] = {0};
    size_t left = length % BLOCK;
    size_t end = left + 1 + LENGTH_FIELD <= BLOCK ? BLOCK : 2 * BLOCK;
    uint64_t bits = 8 * (uint64_t)length;
    if (left != 0)
        memcpy(last, rest, left);
    last[left] = 0x80;
    for (unsigned i = 0; i < LENGTH_FIELD; i++)
        last[end - 1 - i] = (uint8_t)(bits >> 8 * i);
    take_block(sum, last);
    if (end > BLOCK)
        take_block(sum, last + BLOCK);
}

void sha256(const uint8_t *at, size_t length, char digits[SHA256_DIGITS + 1])
{
    uint32_t sum[8] = {0x6a09e667, 0xbb67ae85, 0x3c6ef372, 0xa54ff53a, 0x510e527f, 0x9b05688c, 0x1f83d9ab, 0x5be0cd19};
    size_t whole = length - length % BLOCK;
    for (size_t from = 0; from < whole; from += BLOCK)
        take_block(sum, at + from);
    take_rest(sum, whole != 0 ? at + whole : at, length);
    for (unsigned i = 0; i < 8; i++)
        snprintf(digits + 8 * i, 9, "%08lx", (unsigned long)sum[i]);
}
