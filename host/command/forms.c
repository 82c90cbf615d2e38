#include "forms.h"

#include <inttypes.h>
#include <string.h>

#include "contents.h"

static const char digits_alone[] = "0123456789";

/* Where the zones of a key begin, and where the last one ends. */
static const size_t zones[] = {ROW_BANK, ROW_BRANCH, ROW_CURRENCY, ROW_DECIMALS, ROW_ACCOUNT, ROW_KEY};

enum { ZONES = sizeof zones / sizeof zones[0] - 1 };

void spell_key(const uint8_t *key, char text[KEY_FORM + 1]) {
    const char *zone = (const char *)key;
    snprintf(text, KEY_FORM + 1, "%.5s-%.5s-%.3s-%.1s-%.11s", zone + ROW_BANK, zone + ROW_BRANCH, zone + ROW_CURRENCY,
             zone + ROW_DECIMALS, zone + ROW_ACCOUNT);
}

bool read_key(const char *text, uint8_t key[CROWNHAZEL_KEY]) {
    if (strlen(text) != KEY_FORM) {
        return false;
    }
    for (size_t i = 0; i < ZONES; i++) {
        const char *zone = text + zones[i] + i; /* behind i dashes */
        if (i > 0 && zone[-1] != '-') {
            return false;
        }
        memcpy(key + zones[i], zone, zones[i + 1] - zones[i]);
    }
    return true;
}

unsigned decimals_of(const uint8_t *key) {
    return (unsigned)(key[ROW_DECIMALS] - '0');
}

void spell_day(uint64_t day, char text[DAY_FORM + 1]) {
    snprintf(text, DAY_FORM + 1, "%04u-%02u-%02u", (unsigned)(day / 10000 % 10000), (unsigned)(day / 100 % 100),
             (unsigned)(day % 100));
}

bool read_day(const char *text, uint64_t *day) {
    unsigned year, month, date;
    bool right = strlen(text) == DAY_FORM && strspn(text, digits_alone) == 4 && text[4] == '-' &&
                 strspn(text + 5, digits_alone) == 2 && text[7] == '-' && strspn(text + 8, digits_alone) == 2 &&
                 sscanf(text, "%4u-%2u-%2u", &year, &month, &date) == 3;
    *day = right ? (uint64_t)year * 10000 + month * 100 + date : 0;
    return right;
}

uint64_t day_in(const uint8_t *digits) {
    uint64_t day = 0;
    for (size_t i = 0; i < 8; i++) {
        day = 10 * day + (uint64_t)(digits[i] - '0');
    }
    return day;
}

struct number number_of(int64_t amount, unsigned decimals) {
    uint64_t size = amount < 0 ? 0 - (uint64_t)amount : (uint64_t)amount;
    return (struct number){.negative = amount < 0, .size = size, .decimals = decimals};
}

/* At least one digit stands before the point. */
void spell_number(struct number number, const char *gap, char text[NUMBER_FORM]) {
    char digits[NUMBER_FORM];
    size_t count = (size_t)snprintf(digits, sizeof digits, "%0*" PRIu64, (int)number.decimals + 1, number.size);
    size_t whole = count - number.decimals;
    char *end = text + sprintf(text, "%s", number.negative ? "-" : "");
    for (size_t i = 0; i < count; i++) {
        const char *before = i == whole ? "." : i > 0 && i < whole && (whole - i) % 3 == 0 ? gap : "";
        end += sprintf(end, "%s%c", before, digits[i]);
    }
}

void write_key_members(FILE *out, const uint8_t *key) {
    char spelt[KEY_FORM + 1];
    const char *zone = (const char *)key;
    spell_key(key, spelt);
    fprintf(out,
            "\"key\": \"%s\", \"bank\": \"%.5s\", \"branch\": \"%.5s\", \"currency\": \"%.3s\", \"decimals\": %u, "
            "\"account\": \"%.11s\", ",
            spelt, zone + ROW_BANK, zone + ROW_BRANCH, zone + ROW_CURRENCY, decimals_of(key), zone + ROW_ACCOUNT);
}
