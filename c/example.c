/* A small day of a gateway in C: each answer and each refusal is printed. */
#include "wozkerrim.h"

#include <stdio.h>
#include <string.h>

static void print_number(const char *call, wozkerrim_number answer) {
    if (answer.refused) {
        printf("%s: refused %u\n", call, answer.refused);
    } else {
        printf("%s: %08X flags %u, asked %u\n", call, (unsigned)answer.bits, answer.flags, (unsigned)answer.asked.estimates);
    }
}

static void print_refused(const char *call, uint8_t refused) {
    if (refused) {
        printf("%s: refused %u\n", call, refused);
    } else {
        printf("%s: ok\n", call);
    }
}

static void print_reply(const char *call, wozkerrim_reply_answer answer) {
    if (answer.refused) {
        printf("%s: refused %u, poll %u attempt %u\n", call, answer.refused, answer.poll.address, answer.poll.attempt);
    } else {
        printf("%s: %u stand\n", call, answer.standing);
    }
}

static void print_count(const char *call, wozkerrim_count_answer answer) {
    if (answer.refused) {
        printf("%s: refused %u\n", call, answer.refused);
    } else {
        printf("%s: %u stand\n", call, answer.standing);
    }
}

static void print_peak(wozkerrim_peak_answer answer) {
    if (answer.refused) {
        printf("peak: refused %u\n", answer.refused);
    } else {
        printf("peak: %08X at place %u\n", (unsigned)answer.bits, answer.place);
    }
}

static void print_newest(wozkerrim_newest_answer answer) {
    if (answer.present) {
        printf("newest: %08X\n", (unsigned)answer.bits);
    } else {
        printf("newest: none, refused %u\n", answer.refused);
    }
}

/* Polls and takes the reply in, and gives the meter back. */
static wozkerrim_meter with_reply(wozkerrim_meter meter, uint32_t bits) {
    wozkerrim_poll_answer polled = wozkerrim_poll(meter);
    wozkerrim_reply_answer replied = wozkerrim_reply(polled.meter, polled.poll, bits);
    return replied.meter;
}

static void numbers(void) {
    wozkerrim_number third = wozkerrim_quotient(WOZKERRIM_DIGITS, WOZKERRIM_EVEN, 0x3F800000, 0x40400000);

    print_number("1 / 3", third);
    printf("asked for %llX by %X\n", (unsigned long long)third.asked.dividend, (unsigned)third.asked.divisor);
    print_number("1 / 0", wozkerrim_quotient(WOZKERRIM_RADIX4, WOZKERRIM_EVEN, 0x3F800000, 0x00000000));
    print_number("1 / 3 down", wozkerrim_quotient(WOZKERRIM_CUBIC, WOZKERRIM_DOWN, 0x3F800000, 0x40400000));
    print_number("engine 3", wozkerrim_quotient(3, WOZKERRIM_EVEN, 0x3F800000, 0x40400000));
    print_number("rule 5", wozkerrim_quotient(WOZKERRIM_DIGITS, 5, 0x3F800000, 0x40400000));
    print_number("3 squared", wozkerrim_square(WOZKERRIM_EVEN, 0x40400000));
    print_number("rule 255 squared", wozkerrim_square(255, 0x40400000));
}

static void a_day(void) {
    wozkerrim_meter_answer made = wozkerrim_meter_new(17, WOZKERRIM_CUBIC, WOZKERRIM_EVEN);
    wozkerrim_meter meter = made.meter;
    wozkerrim_poll_answer polled;
    wozkerrim_repeat_answer repeated;
    wozkerrim_reply_answer replied;
    wozkerrim_meter_answer lapsed;
    wozkerrim_count_answer left;
    wozkerrim_pending poll;

    print_refused("meter 17", made.refused);
    print_refused("meter 248", wozkerrim_meter_new(248, WOZKERRIM_CUBIC, WOZKERRIM_EVEN).refused);
    print_refused("meter 999", wozkerrim_meter_new(999, WOZKERRIM_CUBIC, WOZKERRIM_EVEN).refused);
    print_number("mean of none", wozkerrim_mean(meter));
    print_newest(wozkerrim_newest(meter));

    polled = wozkerrim_poll(meter);
    meter = polled.meter;
    poll = polled.poll;
    printf("poll: %u attempt %u, pending %u\n", poll.address, poll.attempt, meter.pending);
    print_refused("another poll", wozkerrim_poll(meter).refused);
    repeated = wozkerrim_repeat(meter, poll);
    poll = repeated.poll;
    printf("repeat: %u attempt %u\n", poll.address, poll.attempt);
    repeated = wozkerrim_repeat(meter, poll);
    poll = repeated.poll;
    printf("repeat: %u attempt %u\n", poll.address, poll.attempt);
    repeated = wozkerrim_repeat(meter, poll);
    printf("repeat: refused %u, attempt %u\n", repeated.refused, repeated.poll.attempt);
    print_reply("reply NaN", wozkerrim_reply(meter, poll, 0x7FC00000));
    replied = wozkerrim_reply(meter, poll, 0x3F800000);
    meter = replied.meter;
    print_reply("reply 1", replied);
    print_reply("the same poll again", wozkerrim_reply(meter, poll, 0x3F800000));

    polled = wozkerrim_poll(meter);
    lapsed = wozkerrim_lapse(polled.meter, polled.poll);
    meter = lapsed.meter;
    print_refused("lapse", lapsed.refused);
    print_refused("lapse again", wozkerrim_lapse(meter, polled.poll).refused);

    meter = with_reply(meter, 0xC0000000); /* -2 */
    meter = with_reply(meter, 0x40A00000); /* 5 */
    meter = with_reply(meter, 0x40A00000);
    printf("standing: %u\n", meter.standing);
    print_newest(wozkerrim_newest(meter));
    print_peak(wozkerrim_peak(meter));
    print_number("mean", wozkerrim_mean(meter));
    print_number("mean square", wozkerrim_mean_square(meter));
    left = wozkerrim_retire(meter);
    meter = left.meter;
    print_count("retire", left);
    print_number("mean", wozkerrim_mean(meter));
    left = wozkerrim_retract(meter);
    meter = left.meter;
    print_count("retract", left);
    print_number("mean", wozkerrim_mean(meter));
    print_peak(wozkerrim_peak(meter));
    print_number("its first by its last", wozkerrim_quotient(meter.engine, meter.rule, meter.replies[0], meter.replies[1]));
    print_number("its last squared", wozkerrim_square(meter.rule, meter.replies[1]));
}

/* A full window, in place. */
static void a_full_window(void) {
    wozkerrim_meter meter = wozkerrim_meter_new(1, WOZKERRIM_RADIX4, WOZKERRIM_UP).meter;
    wozkerrim_pending poll = {0, 0};
    unsigned i;

    for (i = 0; i < WOZKERRIM_ROOM; i++) {
        uint8_t refused = wozkerrim_poll_at(&meter, &poll);
        if (!refused) refused = wozkerrim_reply_at(&meter, &poll, 0x3F800000 + i);
        if (refused) printf("reply %u: refused %u\n", i, refused);
    }
    printf("standing: %u\n", meter.standing);
    print_refused("one more poll", wozkerrim_poll_at(&meter, &poll));
    print_refused("one more reply", wozkerrim_reply_at(&meter, &poll, 0x3F800000));
    print_refused("retire", wozkerrim_retire_at(&meter));
    print_refused("one more reply", wozkerrim_reply_at(&meter, &poll, 0xBF800000));
    printf("oldest %08X newest %08X\n", (unsigned)meter.replies[0], (unsigned)meter.replies[287]);
    print_number("mean", wozkerrim_mean(meter));
    print_refused("no meter at all", wozkerrim_poll_at(0, &poll));
}

/* Numbers that no call gave. */
static void wrong_numbers(void) {
    wozkerrim_meter good = wozkerrim_meter_new(17, WOZKERRIM_DIGITS, WOZKERRIM_ZERO).meter;
    wozkerrim_meter meter;
    wozkerrim_pending poll = {17, 4};

    memset(&meter, 0xFF, sizeof meter);
    print_number("all ones", wozkerrim_mean(meter));
    memset(&meter, 0, sizeof meter);
    print_peak(wozkerrim_peak(meter));
    meter = good;
    meter.standing = 289;
    print_count("289 stand", wozkerrim_retire(meter));
    meter = good;
    meter.standing = 1;
    meter.replies[0] = 0x7F800000;
    print_newest(wozkerrim_newest(meter));
    meter = good;
    meter.pending = 2;
    print_refused("pending 2", wozkerrim_poll(meter).refused);
    meter = good;
    meter.engine = 3;
    print_refused("engine 3", wozkerrim_poll(meter).refused);
    meter = good;
    meter.replies[5] = 0x7F800000; /* behind those that stand */
    meter = with_reply(meter, 0x40000000);
    printf("standing: %u, the cell behind: %08X, the other: %08X\n", meter.standing, (unsigned)meter.replies[1], (unsigned)meter.replies[5]);
    meter = wozkerrim_poll(good).meter;
    print_reply("attempt 4", wozkerrim_reply(meter, poll, 0x40000000));
    poll.address = 18;
    poll.attempt = 1;
    print_reply("address 18", wozkerrim_reply(meter, poll, 0x40000000));
}

int main(void) {
    numbers();
    a_day();
    a_full_window();
    wrong_numbers();
    return 0;
}
