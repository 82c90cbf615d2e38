#include "spelling.h"

#include <stddef.h>
#include <stdint.h>
#include <stdio.h>
#include <stdlib.h>
#include <string.h>

/* The letters of two bytes that are shown as they are: those of Latin-1, and OE and Y of French. No two look alike: eth
 * is left out, which looks as a D with a stroke does. */
static const struct {
    uint32_t first, last;
} letters[] = {{0xC0, 0xCF}, {0xD1, 0xD6}, {0xD8, 0xF6}, {0xF8, 0xFF}, {0x152, 0x153}, {0x178, 0x178}};

/* How many bytes, from here on, are shown as they are; 0 where the first is spelt. */
static size_t shown(const unsigned char *at) {
    if (at[0] >= ' ' && at[0] <= '~') {
        return at[0] == '\\' ? 0 : 1;
    }
    if ((at[0] & 0xE0) != 0xC0 || (at[1] & 0xC0) != 0x80) {
        return 0;
    }
    uint32_t letter = (uint32_t)(at[0] & 0x1F) << 6 | (at[1] & 0x3F);
    for (size_t i = 0; i < sizeof letters / sizeof letters[0]; i++) {
        if (letter >= letters[i].first && letter <= letters[i].last) {
            return 2;
        }
    }
    return 0;
}

/* Appends what is shown, or one byte spelt; answers how many bytes of the text are through. */
static size_t spell(const unsigned char *at, char **end) {
    size_t length = shown(at);
    if (length > 0) {
        memcpy(*end, at, length);
        *end += length;
        return length;
    }
    *end += at[0] == '\\' ? sprintf(*end, "\\\\") : sprintf(*end, "\\x%02x", at[0]);
    return 1;
}

char *spelt(const char *text) {
    enum { MOST_PER_BYTE = 4 };
    char *line = malloc(MOST_PER_BYTE * strlen(text) + 1);
    if (line == NULL) {
        return NULL;
    }
    char *end = line;
    for (const unsigned char *at = (const unsigned char *)text; *at != '\0';) {
        at += spell(at, &end);
    }
    *end = '\0';
    return line;
}
