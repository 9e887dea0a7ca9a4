/* Puts the cases of its standard input to the debouncer of the library and writes what it answers; tests/reference/bounces.rs says how a
   case and a reply are laid out. As the driver, it takes two functions of the C library and none of its headers. */
#include "fuzgerlint.h"

long read(int file, void *to, size_t bytes);
long write(int file, const void *from, size_t bytes);

uint8_t debounce_fresh(uint8_t *card, size_t card_length, const uint8_t *settings, size_t settings_length);
uint8_t debounce_tick(uint8_t *card, size_t card_length, uint8_t bits, uint8_t *report, size_t report_length);

enum { CARD = CARD_STATE + 8 * 5, TICKS = 64, GIVEN = 5, CASE = CARD + GIVEN + TICKS, BEFORE = 165 };

struct reply {
    uint8_t ticks[TICKS][3], card[CARD + 9];
};

static int whole(uint8_t *to, size_t bytes) {
    size_t have = 0;
    while (have < bytes) {
        long more = read(0, to + have, bytes - have);
        if (more <= 0) return 0;
        have += (size_t)more;
    }
    return 1;
}

static int all(const uint8_t *from, size_t bytes) {
    while (bytes > 0) {
        long more = write(1, from, bytes);
        if (more <= 0) return 0;
        from += more;
        bytes -= (size_t)more;
    }
    return 1;
}

static void fill(struct reply *r, const uint8_t *card) {
    uint8_t *bytes = (uint8_t *)r;
    for (size_t i = 0; i < sizeof *r; i++) bytes[i] = BEFORE;
    for (size_t i = 0; i < CARD; i++) r->card[i] = card[i];
}

static void put(struct reply *r, const uint8_t *lent) {
    size_t card = (size_t)lent[0] << 8 | lent[1];
    const uint8_t *given = lent + GIVEN;
    if (lent[4] == 0) {
        r->ticks[0][0] = debounce_fresh(r->card, card, given, lent[2]);
        return;
    }
    for (size_t i = 0; i < lent[2]; i++) r->ticks[i][0] = debounce_tick(r->card, card, given[i], r->ticks[i] + 1, lent[3]);
}

int main(void) {
    static uint8_t one[CASE];
    static struct reply r;
    while (whole(one, CASE)) {
        fill(&r, one);
        put(&r, one + CARD);
        if (!all((const uint8_t *)&r, sizeof r)) return 1;
    }
    return 0;
}
