/* Fuzgerlint for C: an Ada 83 tasking supervisor whose state lies in bytes that the caller lends.
 *
 * Link target/staticlib/libcard.a (x86-64); it needs memcpy, memmove and memset of the program. A slice is a pointer and a number of bytes. The
 * caller has to keep this; all else is taken:
 *   a pointer points to as many bytes as are said; with 0 bytes it may be anything, NULL too;
 *   the slices of one call do not overlap;
 *   until a call has returned no other call uses the same state: who ticks from an interrupt masks it around each call;
 *   what interrupts a call on the same stack leaves the 128 bytes below the stack pointer as they are.
 * Each function but card_sound and second_sound answers a refusal number, 0 for none. A refused call changes nothing but the answer. Bytes behind those
 * named here are left as they are. docs/CARD.md has the layout of a state and of a debouncer's card, and the stack that each function takes.
 */
#ifndef FUZGERLINT_H
#define FUZGERLINT_H

#include <stddef.h>
#include <stdint.h>

#ifdef __cplusplus
extern "C" {
#endif

enum {
    CARD_STATE = 501, /* bytes of a state: clock 4, created 1, 31 tasks of 12, lines ready, callers, held, delays of 31 */
    CARD_ROOM = 124,  /* bytes of room for ended waits: 31 items of task, result, entry, partner */
    CARD_ANSWER = 7,  /* bytes of an answer: refusal, result, task, entry, partner, ended waits, dispatched task */
    CARD_SECOND_STATE = CARD_STATE - 31 + 31 * 31 /* bytes of a state of the second engine: no line of callers, and a row of 31 for each task at the end */
};

enum {
    DEBOUNCE_SETTINGS = 48,             /* bytes of settings: contact 1 to 8, its number, 0, 3, n (1 to 16), p (two bytes, 1 to 65535) */
    DEBOUNCE_CARD = CARD_STATE + 8 * 5, /* bytes of a debouncer's card: its supervisor, then n, p (2), closed, against of each contact */
    DEBOUNCE_REPORT = 1                 /* bytes of a report: bit k - 1 for contact k, 1 for closed */
};

/* A call record is a tag, a length of two bytes, and fields; numbers have their high byte first, and d is a signed number of ticks in four
 * bytes, 0 in a mode other than 1. The fields, with their length:
 *   CREATE 2: priority, entries
 *   DELAY 4: d
 *   CALL 7: target, entry, mode (0 simple, 1 timed with d, 2 conditional), d
 *   SELECT 6: open set (bit k - 1 for entry k), mode (0 plain, 1 delay d, 2 else), d
 *   END, FINISH, TICK 0: none
 *   ADVANCE 4: n, unsigned */
enum {
    CARD_CREATE = 1,
    CARD_DELAY = 2,
    CARD_CALL = 3,
    CARD_SELECT = 4,
    CARD_END = 5,
    CARD_FINISH = 6,
    CARD_TICK = 7,
    CARD_ADVANCE = 8
};

/* Results, of an answer and of an ended wait. */
enum {
    CARD_WAITS = 0,
    CARD_ELAPSED = 1,
    CARD_SERVED = 2,
    CARD_CALL_EXPIRED = 3,
    CARD_TASKING_ERROR = 4,
    CARD_ACCEPTED = 5,
    CARD_DELAY_TAKEN = 6,
    CARD_ELSE_TAKEN = 7,
    CARD_NOT_NOW = 8,
    CARD_PROGRAM_ERROR = 9,
    CARD_DONE = 10
};

/* Refusals; 10 is retired. */
enum {
    CARD_SHORT_ROOM = 1,
    CARD_BAD_STATE = 2,
    CARD_BAD_FIELD = 3,
    CARD_NO_TASK = 4,
    CARD_NO_TARGET = 5,
    CARD_NO_ENTRY = 6,
    CARD_NOT_SERVING = 7,
    CARD_STILL_SERVING = 8,
    CARD_FULL = 9,
    CARD_BAD_RECORD = 11,
    CARD_END_OF_LOG = 12,
    CARD_BAD_SETTING = 17
};

/* Makes a supervisor with no tasks; refusal 1 where there are fewer than CARD_STATE bytes. */
uint8_t card_empty(uint8_t *state, size_t state_length, uint32_t clock);

/* 1 where the bytes are a sound state, 0 otherwise. */
uint8_t card_sound(const uint8_t *state, size_t state_length);

/* One step, the call of a record (bytes behind the record are not looked at). The ended waits are in the room, the numbers in the answer.
 * An answer of fewer than CARD_ANSWER bytes is refused with 1 and left untouched. */
uint8_t card_step(uint8_t *state, size_t state_length, const uint8_t *record, size_t record_length,
                  uint8_t *room, size_t room_length, uint8_t *answer, size_t answer_length);

/* Questions. Each puts one byte into the answer: the COUNT of an entry, 1 or 0 for CALLABLE, the dispatched task (0 if none), the priority of
 * a task (0 for a number not created): the highest created one among itself and everyone below it in the tree of held callers. */
uint8_t card_count(const uint8_t *state, size_t state_length, uint8_t task, uint8_t entry, uint8_t *answer, size_t answer_length);
uint8_t card_callable(const uint8_t *state, size_t state_length, uint8_t task, uint8_t *answer, size_t answer_length);
uint8_t card_running(const uint8_t *state, size_t state_length, uint8_t *answer, size_t answer_length);
uint8_t card_priority(const uint8_t *state, size_t state_length, uint8_t task, uint8_t *answer, size_t answer_length);

/* The same of the second engine, which keeps all calls to a task in one queue, whatever the entry: the same calls get the same answers. Its states
 * have CARD_SECOND_STATE bytes. A state stays with the engine that made it: functions given the other's bytes may take them for a state. */
uint8_t second_empty(uint8_t *state, size_t state_length, uint32_t clock);
uint8_t second_sound(const uint8_t *state, size_t state_length);
uint8_t second_step(uint8_t *state, size_t state_length, const uint8_t *record, size_t record_length,
                    uint8_t *room, size_t room_length, uint8_t *answer, size_t answer_length);
uint8_t second_count(const uint8_t *state, size_t state_length, uint8_t task, uint8_t entry, uint8_t *answer, size_t answer_length);
uint8_t second_callable(const uint8_t *state, size_t state_length, uint8_t task, uint8_t *answer, size_t answer_length);
uint8_t second_priority(const uint8_t *state, size_t state_length, uint8_t task, uint8_t *answer, size_t answer_length);
uint8_t second_running(const uint8_t *state, size_t state_length, uint8_t *answer, size_t answer_length);

/* The contact debouncer. Makes a card of settings: every contact is open. Refusal 1 where there are fewer than DEBOUNCE_CARD bytes, then 17
 * for anything but settings, and then there is no card: nothing is written. */
uint8_t debounce_fresh(uint8_t *card, size_t card_length, const uint8_t *settings, size_t settings_length);

/* One tick, with the raw bits of the contacts: bit k - 1 for contact k, 1 for closed. Refusal 1 where the report has no byte, and then
 * nothing is written; 2 for a damaged card, fewer than DEBOUNCE_CARD bytes too, and then its bytes stay, and the report is 0. */
uint8_t debounce_tick(uint8_t *card, size_t card_length, uint8_t bits, uint8_t *report, size_t report_length);

#ifdef __cplusplus
}
#endif

#endif
