/* The checksum SHA-256, as FIPS 180-4 has it and sha256sum prints it. */
#ifndef COMMAND_SHA256_H
#define COMMAND_SHA256_H

#include "bytes.h"

enum { CHECKSUM_DIGITS = 64 };

/* The checksum of bytes in small hexadecimal digits, with a zero behind them. */
void checksum_of(const struct bytes *bytes, char digits[CHECKSUM_DIGITS + 1]);

#endif
