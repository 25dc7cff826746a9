/*
 * sha256.h - the SHA-256 of some bytes (FIPS 180-4), so that sha256sum can tell years later whether a file is the one reported on.
 */
#ifndef SHA256_H
#define SHA256_H

#include <stddef.h>
#include <stdint.h>

enum { SHA256_DIGITS = 64 };

/* The sum as sha256sum prints it: 64 hex digits in small letters, and a 0 behind them. */
void sha256(const uint8_t *at, size_t length, char digits[SHA256_DIGITS + 1]);

#endif
