/* What no log reaches, through the library, a line for each: rooms of 123 and 124 bytes, a damaged state, the questions, the number 255 for a
   task. The line of a step has refusal, result, task, entry, partner and dispatched task, its ended waits behind bars, and behind a semicolon
   the number of tasks of the state and the first byte of the room. A line of questions has a task and an entry, then refusal and answer of
   COUNT and of CALLABLE. As the driver, it takes one function of the C library and none of its headers. */
#include "fuzgerlint.h"

long write(int file, const void *from, size_t bytes);

enum { CREATED = 4 };

static uint8_t state[CARD_STATE], room[CARD_ROOM], answer[CARD_ANSWER];
static char told[4096];
static size_t place;

static void word(const char *text) {
    while (*text) told[place++] = *text++;
}

static void number(uint8_t n) {
    if (n >= 10) number(n / 10);
    told[place++] = (char)('0' + n % 10);
}

static void numbers(const uint8_t *all, int count) {
    for (int i = 0; i < count; i++) {
        word(" ");
        number(all[i]);
    }
}

static void step(const char *name, const uint8_t *record, size_t length, size_t lent) {
    for (size_t i = 0; i < CARD_ROOM; i++) room[i] = 9;
    uint8_t refusal = card_step(state, sizeof state, record, length, room, lent, answer, sizeof answer);
    word(name);
    numbers(&refusal, 1);
    numbers(answer + 1, 4);
    numbers(answer + 6, 1);
    for (int i = 0; i < answer[5]; i++) {
        word(" |");
        numbers(room + 4 * i, 4);
    }
    word(";");
    numbers(state + CREATED, 1);
    numbers(room, 1);
    word("\n");
}

static void ask(uint8_t task, uint8_t entry) {
    uint8_t asked[] = {task, entry}, count[2], callable[2];
    count[0] = card_count(state, sizeof state, task, entry, count + 1, 1);
    callable[0] = card_callable(state, sizeof state, task, callable + 1, 1);
    word("COUNT, CALLABLE");
    numbers(asked, 2);
    word(":");
    numbers(count, 2);
    word(",");
    numbers(callable, 2);
    word("\n");
}

/* Tasks and entries that are there and that are not. */
static void questions(void) {
    ask(1, 1);
    ask(1, 2);
    ask(1, 255);
    ask(255, 1);
    ask(2, 0);
    ask(0, 0);
}

int main(void) {
    static const uint8_t low[] = {1, 0, 2, 5, 1}, high[] = {1, 0, 2, 9, 0}, timed[] = {3, 0, 7, 1, 1, 1, 0, 0, 0, 1};
    static const uint8_t tick[] = {7, 0, 0}, missing[] = {3, 0, 7, 255, 255, 0, 0, 0, 0, 0};
    card_empty(state, sizeof state, 4294967295u);
    step("CREATE, room 123:", low, sizeof low, CARD_ROOM - 1);
    step("CREATE, room 124:", low, sizeof low, CARD_ROOM);
    step("CREATE:", high, sizeof high, CARD_ROOM);
    step("CALL timed 1:", timed, sizeof timed, CARD_ROOM);
    questions();
    state[CREATED] = 255;
    step("TICK, damaged:", tick, sizeof tick, CARD_ROOM);
    questions();
    state[CREATED] = 2;
    step("CALL of 255:", missing, sizeof missing, CARD_ROOM);
    step("TICK, the clock goes round:", tick, sizeof tick, CARD_ROOM);
    questions();
    return write(1, told, place) != (long)place;
}
