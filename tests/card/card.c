/* The sample of document 01, the calls that it has not, the questions and some refusals, on both engines, and a debouncer's card, through the library
 * that a C program links. */
#include <stdio.h>
#include <string.h>
#include "fuzgerlint.h"

/* Bytes behind those that the library may write, to see that it leaves them. */
enum { BEHIND = 8, MARK = 0xA5 };

/* Where task 1 stands in a state, and three of its bytes. */
enum { FIRST_TASK = 5, CURRENT = 1, TAG = 3, KEPT = 6 };

/* An engine: its name, the bytes of its state, and its functions. */
struct engine {
    const char *name;
    size_t state;
    uint8_t (*empty)(uint8_t *, size_t, uint32_t);
    uint8_t (*sound)(const uint8_t *, size_t);
    uint8_t (*step)(uint8_t *, size_t, const uint8_t *, size_t, uint8_t *, size_t, uint8_t *, size_t);
    uint8_t (*count)(const uint8_t *, size_t, uint8_t, uint8_t, uint8_t *, size_t);
    uint8_t (*callable)(const uint8_t *, size_t, uint8_t, uint8_t *, size_t);
    uint8_t (*running)(const uint8_t *, size_t, uint8_t *, size_t);
};

static const struct engine first = {"card", CARD_STATE, card_empty, card_sound, card_step, card_count, card_callable, card_running};
static const struct engine second = {"second", CARD_SECOND_STATE, second_empty, second_sound, second_step, second_count, second_callable, second_running};

/* The engine that is used, and how many bytes it is lent for a state. */
static const struct engine *card;
static size_t lent;

static uint8_t state[CARD_SECOND_STATE + BEHIND], room[CARD_ROOM + BEHIND], answer[CARD_ANSWER + BEHIND];

static uint8_t step(const uint8_t *record, size_t length)
{
    return card->step(state, lent, record, length, room, sizeof room, answer, sizeof answer);
}

static int marked(const uint8_t *bytes, size_t from)
{
    for (int i = 0; i < BEHIND; i++)
        if (bytes[from + i] != MARK)
            return 0;
    return 1;
}

/* Takes the calls of a log, and prints a line for each, with its number from n on. */
static void take(const uint8_t *log, size_t length, int n)
{
    size_t at = 0;
    while (at < length) {
        uint8_t refusal = step(log + at, length - at);
        printf("%d %d %d %d %d %d %d", n++, refusal, answer[1], answer[2], answer[3], answer[4], answer[6]);
        for (int i = 0; i < answer[5]; i++)
            printf(" | %d %d %d %d", room[4 * i], room[4 * i + 1], room[4 * i + 2], room[4 * i + 3]);
        putchar('\n');
        at += 3 + log[at + 1] * 256 + log[at + 2];
    }
}

/* Asks a question of each kind, COUNT of two entries. */
static void ask(void)
{
    uint8_t one[1], refusal;
    printf("sound %d", card->sound(state, lent));
    refusal = card->count(state, lent, 3, 1, one, 1);
    printf(" count %d %d", refusal, one[0]);
    refusal = card->count(state, lent, 1, 3, one, 1);
    printf(" %d %d", refusal, one[0]);
    refusal = card->callable(state, lent, 3, one, 1);
    printf(" callable %d %d", refusal, one[0]);
    refusal = card->running(state, lent, one, 1);
    printf(" running %d %d\n", refusal, one[0]);
}

/* The priorities of two tasks in a rendezvous, and of a number that is no task's, by the first engine. */
static void priorities(void)
{
    static const uint8_t held[] = {CARD_CREATE, 0, 2, 5, 1, CARD_CREATE, 0, 2, 9, 0, CARD_CALL, 0, 7, 1, 1, 0, 0, 0, 0, 0, CARD_SELECT, 0, 6, 1, 0, 0, 0, 0, 0};
    uint8_t one[1], refusal;
    card = &first;
    lent = card->state;
    printf("priorities %d\n", card->empty(state, lent, 0));
    take(held, sizeof held, 1);
    for (uint8_t task = 1; task <= 3; task++) {
        refusal = card_priority(state, lent, task, one, 1);
        printf("%d %d\n", refusal, one[0]);
    }
    printf("no answer %d\n", card_priority(state, lent, 1, NULL, 0));
}

/* Debounces raw bits: of each contact the last two samples count, and those of even number are sampled every other tick. */
static void debounce(void)
{
    static const uint8_t raw[] = {1, 0, 3, 3, 255, 254, 255, 170, 0, 0, 0};
    uint8_t card[DEBOUNCE_CARD + BEHIND], before[sizeof card], settings[DEBOUNCE_SETTINGS], report[DEBOUNCE_REPORT + BEHIND], refusal;
    for (int k = 0; k < 8; k++) {
        const uint8_t field[] = {k + 1, 0, 3, 2, 0, 1 + k % 2};
        memcpy(settings + 6 * k, field, sizeof field);
    }
    memset(card, MARK, sizeof card);
    memset(report, MARK, sizeof report);
    printf("debounce %d\n", debounce_fresh(card, sizeof card, settings, sizeof settings));
    for (size_t i = 0; i < sizeof raw; i++) {
        refusal = debounce_tick(card, sizeof card, raw[i], report, sizeof report);
        printf("%d %d %d\n", refusal, raw[i], report[0]);
    }

    memcpy(before, card, sizeof card);
    printf("short card %d", debounce_fresh(card, DEBOUNCE_CARD - 1, settings, sizeof settings));
    refusal = debounce_tick(card, DEBOUNCE_CARD - 1, 255, report, sizeof report);
    printf(" %d %d\n", refusal, report[0]);
    printf("no report %d\n", debounce_tick(card, sizeof card, 255, NULL, 0));
    printf("short settings %d\n", debounce_fresh(card, sizeof card, settings, sizeof settings - 1));
    settings[3] = 17;
    printf("other setting %d\n", debounce_fresh(card, sizeof card, settings, sizeof settings));
    card[CARD_STATE + 3] = 2;
    printf("neither closed nor open %d\n", debounce_tick(card, sizeof card, 255, report, sizeof report));
    card[CARD_STATE + 3] = before[CARD_STATE + 3];
    printf("untouched %d\n", memcmp(before, card, sizeof card) == 0 && marked(card, DEBOUNCE_CARD) && marked(report, DEBOUNCE_REPORT));
}

/* The whole, on an engine. */
static void run(const struct engine *used)
{
    static const uint8_t sample[] = {
        CARD_CREATE, 0, 2, 5, 1, CARD_CREATE, 0, 2, 9, 0, CARD_CALL, 0, 7, 1, 1, 1, 0, 0, 0, 3, CARD_TICK, 0, 0,
        CARD_SELECT, 0, 6, 1, 0, 0, 0, 0, 0, CARD_TICK, 0, 0, CARD_TICK, 0, 0, CARD_END, 0, 0, CARD_END, 0, 0,
    };
    static const uint8_t queued[] = {CARD_CREATE, 0, 2, 1, 1, CARD_CALL, 0, 7, 3, 1, 0, 0, 0, 0, 0};
    static const uint8_t ended[] = {CARD_DELAY, 0, 4, 0, 0, 0, 5, CARD_FINISH, 0, 0, CARD_ADVANCE, 0, 4, 1, 2, 3, 4};
    static const uint8_t tick[] = {CARD_TICK, 0, 0};
    uint8_t before[sizeof state];
    card = used;
    lent = card->state + BEHIND;
    printf("engine %s\n", card->name);
    memset(state, MARK, sizeof state);
    memset(room, MARK, sizeof room);
    memset(answer, MARK, sizeof answer);
    printf("empty %d\n", card->empty(state, lent, 4294967294));
    take(sample, sizeof sample, 1);
    take(queued, sizeof queued, 10);
    ask();
    take(ended, sizeof ended, 12);
    ask();
    printf("clock %d %d %d %d\n", state[0], state[1], state[2], state[3]);

    memcpy(before, state, sizeof state);
    printf("short state %d", card->empty(state, card->state - 1, 0));
    printf(" %d", card->step(state, card->state - 1, tick, 3, room, sizeof room, answer, sizeof answer));
    printf(" %d\n", card->sound(state, card->state - 1));
    state[FIRST_TASK + TAG] = 7;
    printf("other tag %d\n", step(tick, 3));
    state[FIRST_TASK + TAG] = before[FIRST_TASK + TAG];
    state[FIRST_TASK + TAG + 1] = 1;
    printf("unused byte %d\n", step(tick, 3));
    state[FIRST_TASK + TAG + 1] = before[FIRST_TASK + TAG + 1];
    state[FIRST_TASK + CURRENT] = 16;
    printf("current priority 16 %d\n", step(tick, 3));
    state[FIRST_TASK + CURRENT] = before[FIRST_TASK + CURRENT];
    state[FIRST_TASK + KEPT] = 1;
    printf("kept priority of a task that is not held %d\n", step(tick, 3));
    state[FIRST_TASK + KEPT] = before[FIRST_TASK + KEPT];
    printf("short answer %d\n", card->step(state, lent, tick, 3, room, sizeof room, answer, CARD_ANSWER - 1));
    printf("short room %d\n", card->step(state, lent, tick, 3, room, CARD_ROOM - 1, answer, sizeof answer));
    printf("cut record %d\n", step(tick, 2));
    printf("no record %d %d\n", step(tick, 0), step(NULL, 0));
    printf("no answer %d", card->count(state, lent, 3, 1, NULL, 0));
    printf(" %d", card->callable(state, lent, 3, NULL, 0));
    printf(" %d\n", card->running(state, lent, NULL, 0));
    printf("untouched %d\n", memcmp(before, state, sizeof state) == 0 && marked(state, card->state) && marked(room, CARD_ROOM) && marked(answer, CARD_ANSWER));
}

int main(void)
{
    run(&first);
    run(&second);
    priorities();
    debounce();
    return 0;
}
