/* One kind of call, many times, on operands from a fixed generator: bench CASE OPERANDS COUNT prints a checksum and nanoseconds. */
#include <stdint.h>
#include <stdio.h>
#include <stdlib.h>
#include <string.h>
#include <time.h>
#ifdef HAVE_MPFR
#include <mpfr.h>
#endif
#include "../c/wozkerrim.h"

/* What a compiler calls on a processor without a floating unit. */
float __divsf3(float dividend, float divisor);
float __mulsf3(float x, float y);

enum { PAIRS = 1024 };
static uint32_t over[PAIRS], under[PAIRS];

static float as_float(uint32_t bits) {
    float x;
    memcpy(&x, &bits, sizeof x);
    return x;
}

static uint32_t as_bits(float x) {
    uint32_t bits;
    memcpy(&bits, &x, sizeof bits);
    return bits;
}

static uint64_t state = 88172645463325252u;

static uint32_t next(void) {
    state ^= state << 13;
    state ^= state >> 7;
    state ^= state << 17;
    return (uint32_t)(state >> 24);
}

/* "normal": readings of a house and what they are divided by. "subnormal": quotients and squares below the smallest normal number.
 * "any": every encoding alike, NaNs and infinities among them. */
static void fill(const char *operands) {
    for (int i = 0; i < PAIRS; i++) {
        uint32_t x = next(), y = next();
        if (strcmp(operands, "normal") == 0) {
            x = (x & 0x807fffffu) | (100u + (x >> 23 & 31)) << 23;
            y = (y & 0x807fffffu) | (110u + (y >> 23 & 31)) << 23;
        } else if (strcmp(operands, "subnormal") == 0) {
            x = (x & 0x807fffffu) | (55u + (x >> 23 & 7)) << 23;
            y = (y & 0x807fffffu) | (190u + (y >> 23 & 7)) << 23;
        }
        over[i] = x;
        under[i] = y;
    }
}

#ifdef HAVE_MPFR
static mpfr_t mx, my, mq;

static uint32_t mpfr_quotient(uint32_t x, uint32_t y) {
    mpfr_set_flt(mx, as_float(x), MPFR_RNDN);
    mpfr_set_flt(my, as_float(y), MPFR_RNDN);
    mpfr_div(mq, mx, my, MPFR_RNDN);
    return as_bits(mpfr_get_flt(mq, MPFR_RNDN));
}
#endif

int main(int argc, char **argv) {
    if (argc != 4) {
        fprintf(stderr, "bench CASE normal|subnormal|any COUNT\n");
        return 2;
    }
    const char *kind = argv[1];
    long count = atol(argv[3]);
    uint32_t sum = 0;
    struct timespec from, to;
    fill(argv[2]);
#ifdef HAVE_MPFR
    mpfr_inits2(24, mx, my, mq, (mpfr_ptr)0);
#endif
#define CALLS(call)                                                      \
    for (long i = 0; i < count; i++) {                                   \
        uint32_t x = over[i & (PAIRS - 1)], y = under[i & (PAIRS - 1)]; \
        (void)y;                                                         \
        sum = (sum << 1 | sum >> 31) ^ (call);                           \
    }
    clock_gettime(CLOCK_MONOTONIC, &from);
    if (strcmp(kind, "nothing") == 0) {
        CALLS(x ^ y)
    } else if (strcmp(kind, "digits") == 0) {
        CALLS(wozkerrim_quotient_digits(x, y).bits)
    } else if (strcmp(kind, "radix4") == 0) {
        CALLS(wozkerrim_quotient_radix4(x, y).bits)
    } else if (strcmp(kind, "cubic") == 0) {
        CALLS(wozkerrim_quotient_cubic(x, y).bits)
    } else if (strcmp(kind, "cubic-by-number") == 0) {
        CALLS(wozkerrim_quotient(WOZKERRIM_CUBIC, WOZKERRIM_EVEN, x, y).bits)
    } else if (strcmp(kind, "square") == 0) {
        CALLS(wozkerrim_square_even(x).bits)
    } else if (strcmp(kind, "square-by-number") == 0) {
        CALLS(wozkerrim_square(WOZKERRIM_EVEN, x).bits)
    } else if (strcmp(kind, "divsf3") == 0) {
        CALLS(as_bits(__divsf3(as_float(x), as_float(y))))
    } else if (strcmp(kind, "mulsf3") == 0) {
        CALLS(as_bits(__mulsf3(as_float(x), as_float(x))))
    } else if (strcmp(kind, "machine-divide") == 0) {
        CALLS(as_bits(as_float(x) / as_float(y)))
    } else if (strcmp(kind, "machine-multiply") == 0) {
        CALLS(as_bits(as_float(x) * as_float(x)))
#ifdef HAVE_MPFR
    } else if (strcmp(kind, "mpfr") == 0) {
        CALLS(mpfr_quotient(x, y))
#endif
    } else {
        fprintf(stderr, "bench: no case %s\n", kind);
        return 2;
    }
    clock_gettime(CLOCK_MONOTONIC, &to);
    printf("%08x %.1f\n", (unsigned)sum, ((to.tv_sec - from.tv_sec) * 1e9 + (to.tv_nsec - from.tv_nsec)) / (count ? count : 1));
    return 0;
}
