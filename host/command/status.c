#include "status.h"

int status_of_refusal(uint32_t number) {
    if (number == 21) {
        return STATUS_UNSOUND;
    }
    if (number >= 22 && number <= 24) {
        return STATUS_JOURNAL_REFUSES;
    }
    return number == 25 || number == 27 ? STATUS_USAGE : STATUS_FILE_REFUSED;
}

static int rank(int status) {
    static const int ranks[] = {
        [STATUS_DONE] = 0,  [STATUS_FILE_REFUSED] = 1, [STATUS_JOURNAL_REFUSES] = 2,
        [STATUS_USAGE] = 3, [STATUS_SYSTEM] = 4,       [STATUS_UNSOUND] = 5,
    };
    return ranks[status];
}

int worse(int one, int other) {
    return rank(one) > rank(other) ? one : other;
}
