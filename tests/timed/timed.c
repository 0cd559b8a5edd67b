/*
 * The comparison of two byte strings ends when their lengths differ or at the first unequal byte (order 6). That is seen by
 * the time: two strings of 4,096 bytes unequal in the first byte, and 4,096 bytes against their first 4,095, have to take
 * less than half the time of two equal ones. Of each pair the fastest of many rounds counts, and the pairs take turns, so
 * that what else runs on the machine does not matter. The answers are looked at too.
 *
 * A control that looks at every byte shows that the judgement can fail: it has to be found too slow.
 */
#define _POSIX_C_SOURCE 200809L

#include <stdbool.h>
#include <stdint.h>
#include <stdio.h>
#include <stdlib.h>
#include <time.h>

enum { LONG = 4096, ROUNDS = 500, CALLS = 64 };

typedef uint32_t comparison(const uint8_t *a, size_t a_len, const uint8_t *b, size_t b_len);

/* Of crates/timed_equal: 1 for equal strings, 0 for others. */
comparison timed_equal;

static uint32_t every_byte(const uint8_t *a, size_t a_len, const uint8_t *b, size_t b_len)
{
    volatile uint8_t unequal = 0; /* so that no byte can be left out */

    for (size_t i = 0; i < a_len && i < b_len; i++)
        unequal |= a[i] ^ b[i];
    return a_len == b_len && unequal == 0;
}

struct pair {
    const char *name;
    size_t length; /* of the second string */
    uint32_t answer;
    double fastest; /* nanoseconds for a call */
    uint8_t a[LONG], b[LONG];
};

enum { SAME, FIRST_BYTE, SHORTER, PAIRS };

static struct pair pairs[PAIRS] = {
    {.name = "4,096 equal bytes", .length = LONG, .answer = 1},
    {.name = "4,096 unequal in the first byte", .length = LONG, .answer = 0},
    {.name = "4,096 against their first 4,095", .length = LONG - 1, .answer = 0},
};

static double nanoseconds(void)
{
    struct timespec now;

    clock_gettime(CLOCK_MONOTONIC, &now);
    return (double)now.tv_sec * 1e9 + (double)now.tv_nsec;
}

static void fill_pairs(void)
{
    for (int k = 0; k < PAIRS; k++)
        for (int i = 0; i < LONG; i++)
            pairs[k].a[i] = pairs[k].b[i] = (uint8_t)(i * 7 % 251);
    pairs[FIRST_BYTE].b[0] ^= 1;
}

static void time_round(comparison *equal, struct pair *pair)
{
    double before = nanoseconds(), took;
    bool right = true;

    for (int i = 0; i < CALLS; i++)
        right &= equal(pair->a, LONG, pair->b, pair->length) == pair->answer;
    took = (nanoseconds() - before) / CALLS;
    if (took < pair->fastest)
        pair->fastest = took;
    if (!right) {
        printf("timed: a wrong answer for %s\n", pair->name);
        exit(EXIT_FAILURE);
    }
}

static void time_pairs(const char *name, comparison *equal)
{
    for (int k = 0; k < PAIRS; k++)
        pairs[k].fastest = 1e9;
    for (int r = 0; r < ROUNDS; r++)
        for (int k = 0; k < PAIRS; k++)
            time_round(equal, &pairs[k]);
    printf("%s:\n", name);
    for (int k = 0; k < PAIRS; k++)
        printf("  %-32s %9.1f ns\n", pairs[k].name, pairs[k].fastest);
}

static bool ends_early(int pair)
{
    return pairs[pair].fastest < pairs[SAME].fastest / 2;
}

int main(void)
{
    int passed;

    fill_pairs();
    time_pairs("text::equal", timed_equal);
    passed = ends_early(FIRST_BYTE) + ends_early(SHORTER);
    time_pairs("the control, which looks at every byte and has to be too slow", every_byte);
    passed += !ends_early(FIRST_BYTE) + !ends_early(SHORTER);
    printf("%d passed, %d failed\n", passed, 4 - passed);
    return passed == 4 ? EXIT_SUCCESS : EXIT_FAILURE;
}
