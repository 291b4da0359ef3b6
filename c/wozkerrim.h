/* Wozkerrim for C: quotients, squares and meters over binary32 encodings, in integers.
 *
 * Every call takes and gives plain numbers by value, and checks all that it is given: whatever a caller passes, the call is safe
 * and its answer is the one that docs/C.md states. No call allocates, keeps anything between calls or can fail otherwise.
 */
#ifndef WOZKERRIM_H
#define WOZKERRIM_H

#include <stdint.h>

#ifdef __cplusplus
extern "C" {
#endif

/* Engines. No answer depends on which one is named. */
enum { WOZKERRIM_DIGITS = 0, WOZKERRIM_RADIX4 = 1, WOZKERRIM_CUBIC = 2 };

/* Rounding rules: to nearest with a tie to even or away from zero, toward zero, up, down. */
enum { WOZKERRIM_EVEN = 0, WOZKERRIM_AWAY = 1, WOZKERRIM_ZERO = 2, WOZKERRIM_UP = 3, WOZKERRIM_DOWN = 4 };

/* Flags, added up. */
enum {
    WOZKERRIM_INVALID = 1,
    WOZKERRIM_ZERO_DIVIDE = 2,
    WOZKERRIM_OVERFLOW = 4,
    WOZKERRIM_UNDERFLOW = 8,
    WOZKERRIM_INEXACT = 16
};

/* What `refused` says: 0 accepted, 2 to 9 the library's own refusals, from 101 on what only a C caller can do wrong. */
enum {
    WOZKERRIM_ACCEPTED = 0,
    WOZKERRIM_BAD_ADDRESS = 2,
    WOZKERRIM_NOT_FINITE = 3,
    WOZKERRIM_OTHER_ADDRESS = 4,
    WOZKERRIM_STILL_PENDING = 5,
    WOZKERRIM_NONE_PENDING = 6,
    WOZKERRIM_FULL = 7,
    WOZKERRIM_EMPTY = 8,
    WOZKERRIM_LAST_ATTEMPT = 9,
    WOZKERRIM_NO_ENGINE = 101,
    WOZKERRIM_NO_RULE = 102,
    WOZKERRIM_NO_METER = 103,
    WOZKERRIM_NO_POLL = 104
};

enum { WOZKERRIM_ROOM = 288 };

/* A meter: plain data, to keep and copy as you like. wozkerrim_meter_new makes one, and each call gives the next one back; other
 * numbers are refused by WOZKERRIM_NO_METER unless they stand for a meter too. */
typedef struct {
    uint32_t replies[WOZKERRIM_ROOM]; /* the standing replies, oldest first, finite encodings; the cells behind them are not
                                         read, and are 0 in a meter that a call has changed */
    uint16_t standing;                /* how many stand, at most 288 */
    uint8_t address;                  /* the inverter's, 1 to 247 */
    uint8_t engine;                   /* WOZKERRIM_DIGITS and so on */
    uint8_t rule;                     /* WOZKERRIM_EVEN and so on */
    uint8_t pending;                  /* 1 while a poll is pending, else 0 */
} wozkerrim_meter;

/* A pending poll: the address that it went to, and its attempt, 1 to 3. It should end in one reply or one lapse; C can
 * forget or copy it, and a second reply is then refused by WOZKERRIM_NONE_PENDING. */
typedef struct {
    uint8_t address;
    uint8_t attempt;
} wozkerrim_pending;

/* Answers. Where `refused` is not 0, a meter and a poll in an answer are those that were given, and all other numbers are 0. */
typedef struct {
    uint32_t estimates; /* how many estimates this one call asked its engine for: 0 or 1 */
    uint32_t divisor;   /* and for which pair, or 0 */
    uint64_t dividend;
} wozkerrim_asked;

typedef struct {
    uint32_t bits; /* an encoding */
    uint8_t flags; /* the flags that it raised */
    uint8_t refused;
    wozkerrim_asked asked;
} wozkerrim_number;

typedef struct {
    wozkerrim_meter meter;
    uint8_t refused;
} wozkerrim_meter_answer;

typedef struct {
    wozkerrim_meter meter;
    wozkerrim_pending poll;
    uint8_t refused;
} wozkerrim_poll_answer;

typedef struct {
    wozkerrim_pending poll;
    uint8_t refused;
} wozkerrim_repeat_answer;

typedef struct {
    wozkerrim_meter meter;
    wozkerrim_pending poll; /* all 0 once the poll is over */
    uint16_t standing;
    uint8_t refused;
} wozkerrim_reply_answer;

typedef struct {
    wozkerrim_meter meter;
    uint16_t standing;
    uint8_t refused;
} wozkerrim_count_answer;

typedef struct {
    uint16_t place; /* counted from 1 at the oldest reply */
    uint32_t bits;
    uint8_t refused;
} wozkerrim_peak_answer;

typedef struct {
    uint32_t bits;
    uint8_t present; /* 1 where a reply stands, else 0 */
    uint8_t refused;
} wozkerrim_newest_answer;

/* Quotient and square with the engine fixed when the firmware is built, ties to even. They refuse nothing, and give what
 * wozkerrim_quotient and wozkerrim_square give by number, in fewer instructions. */
typedef struct {
    uint32_t bits;
    uint8_t flags;
} wozkerrim_rounded;

wozkerrim_rounded wozkerrim_quotient_digits(uint32_t dividend, uint32_t divisor);
wozkerrim_rounded wozkerrim_quotient_radix4(uint32_t dividend, uint32_t divisor);
wozkerrim_rounded wozkerrim_quotient_cubic(uint32_t dividend, uint32_t divisor);
wozkerrim_rounded wozkerrim_square_even(uint32_t operand);

/* Numbers. A meter's own quotient and square are those of its engine and rule. */
wozkerrim_number wozkerrim_quotient(uint8_t engine, uint8_t rule, uint32_t dividend, uint32_t divisor);
wozkerrim_number wozkerrim_square(uint8_t rule, uint32_t operand);

/* A new meter, with nothing standing and no poll pending; all its numbers are 0 where it is refused. */
wozkerrim_meter_answer wozkerrim_meter_new(uint16_t address, uint8_t engine, uint8_t rule);

/* Polls: begun, tried again, and ended by a reply or a lapse. */
wozkerrim_poll_answer wozkerrim_poll(wozkerrim_meter meter);
wozkerrim_repeat_answer wozkerrim_repeat(wozkerrim_meter meter, wozkerrim_pending poll);
wozkerrim_reply_answer wozkerrim_reply(wozkerrim_meter meter, wozkerrim_pending poll, uint32_t bits);
wozkerrim_meter_answer wozkerrim_lapse(wozkerrim_meter meter, wozkerrim_pending poll);

/* The oldest or the newest reply goes; `standing` says how many are left. */
wozkerrim_count_answer wozkerrim_retire(wozkerrim_meter meter);
wozkerrim_count_answer wozkerrim_retract(wozkerrim_meter meter);

/* What the standing replies come to. */
wozkerrim_number wozkerrim_mean(wozkerrim_meter meter);
wozkerrim_number wozkerrim_mean_square(wozkerrim_meter meter);
wozkerrim_peak_answer wozkerrim_peak(wozkerrim_meter meter);
wozkerrim_newest_answer wozkerrim_newest(wozkerrim_meter meter);

/* The calls that change a meter, on one that stays where it is: each gives what `refused` would say. A null pointer is refused as
 * the numbers that it should have led to. */
static inline uint8_t wozkerrim_poll_at(wozkerrim_meter *meter, wozkerrim_pending *poll) {
    wozkerrim_poll_answer answer;
    if (!meter) return WOZKERRIM_NO_METER;
    if (!poll) return WOZKERRIM_NO_POLL;
    answer = wozkerrim_poll(*meter);
    *meter = answer.meter;
    if (!answer.refused) *poll = answer.poll;
    return answer.refused;
}

static inline uint8_t wozkerrim_repeat_at(const wozkerrim_meter *meter, wozkerrim_pending *poll) {
    wozkerrim_repeat_answer answer;
    if (!meter) return WOZKERRIM_NO_METER;
    if (!poll) return WOZKERRIM_NO_POLL;
    answer = wozkerrim_repeat(*meter, *poll);
    *poll = answer.poll;
    return answer.refused;
}

static inline uint8_t wozkerrim_reply_at(wozkerrim_meter *meter, wozkerrim_pending *poll, uint32_t bits) {
    wozkerrim_reply_answer answer;
    if (!meter) return WOZKERRIM_NO_METER;
    if (!poll) return WOZKERRIM_NO_POLL;
    answer = wozkerrim_reply(*meter, *poll, bits);
    *meter = answer.meter;
    *poll = answer.poll;
    return answer.refused;
}

static inline uint8_t wozkerrim_lapse_at(wozkerrim_meter *meter, wozkerrim_pending poll) {
    wozkerrim_meter_answer answer;
    if (!meter) return WOZKERRIM_NO_METER;
    answer = wozkerrim_lapse(*meter, poll);
    *meter = answer.meter;
    return answer.refused;
}

static inline uint8_t wozkerrim_retire_at(wozkerrim_meter *meter) {
    wozkerrim_count_answer answer;
    if (!meter) return WOZKERRIM_NO_METER;
    answer = wozkerrim_retire(*meter);
    *meter = answer.meter;
    return answer.refused;
}

static inline uint8_t wozkerrim_retract_at(wozkerrim_meter *meter) {
    wozkerrim_count_answer answer;
    if (!meter) return WOZKERRIM_NO_METER;
    answer = wozkerrim_retract(*meter);
    *meter = answer.meter;
    return answer.refused;
}

#ifdef __cplusplus
}
#endif

#endif
