/* Decodes frames of 4,090 bits of the long code, closed, at rate 1/2, by the sum of penalties: by the proved search and by a
   plain decoder with 64-bit sums. Prints nanoseconds per message bit of both and their ratio, and checks that both agree. */
#include <stdint.h>
#include <stdio.h>
#include <stdlib.h>
#include <string.h>
#include <time.h>

enum { BITS = 4090, MEMORY = 6, STEPS = BITS + MEMORY, STATES = 64, SENT = 2 * STEPS, LIMIT = 16759809 };

uint8_t nearest_long_sum(uint16_t bits, const int32_t *soft, size_t soft_len, uint64_t *decisions, size_t decisions_len,
                         uint64_t *totals, size_t totals_len, uint64_t *spare, size_t spare_len, uint8_t *message,
                         size_t message_len, uint64_t *total);

static uint8_t lower_pair[STATES], higher_pair[STATES];

static void tables(void)
{
    for (int s = 0; s < STATES; s++) {
        int input = s / 32, from = 2 * s % 64;
        for (int higher = 0; higher < 2; higher++) {
            unsigned r = 64u * input + from + higher;
            int pair = 2 * __builtin_parity(r & 0133) + __builtin_parity(r & 0171);
            (higher ? higher_pair : lower_pair)[s] = pair;
        }
    }
}

static int64_t limited(int32_t v) { return v > LIMIT ? LIMIT : v < -LIMIT ? -LIMIT : v; }

/* The plain decoder: 64-bit sums, one table of four branch sums a step, one decision word a step. */
static __attribute__((noinline)) uint64_t plain(const int32_t *soft, uint64_t *words, uint64_t *a, uint64_t *b, uint8_t *message)
{
    uint64_t *old = a, *new = b;
    for (int s = 0; s < STATES; s++)
        old[s] = s == 0 ? 0 : (uint64_t)1 << 62;
    for (int k = 0; k < STEPS; k++) {
        int64_t v = limited(soft[2 * k]), w = limited(soft[2 * k + 1]);
        uint64_t v0 = v > 0 ? v : 0, v1 = v < 0 ? -v : 0, w0 = w > 0 ? w : 0, w1 = w < 0 ? -w : 0;
        uint64_t pays[4] = {v0 + w0, v0 + w1, v1 + w0, v1 + w1};
        uint64_t word = 0;
        for (int s = 0; s < STATES; s++) {
            int from = 2 * s % 64;
            uint64_t t = old[from] + pays[lower_pair[s]];
            uint64_t u = old[from + 1] + pays[higher_pair[s]];
            uint64_t higher = u < t;
            new[s] = higher ? u : t;
            word |= higher << s;
        }
        words[k] = word;
        uint64_t *swap = old;
        old = new;
        new = swap;
    }
    int s = 0;
    for (int k = STEPS - 1; k >= 0; k--) {
        if (k < BITS)
            message[k] = s / 32;
        s = 2 * s % 64 + (words[k] >> s & 1);
    }
    return old[0];
}

static uint64_t state = 88172645463325252u;
static uint64_t next_random(void)
{
    state ^= state << 13;
    state ^= state >> 7;
    state ^= state << 17;
    return state;
}

static double seconds(void)
{
    struct timespec t;
    clock_gettime(CLOCK_MONOTONIC, &t);
    return t.tv_sec + t.tv_nsec * 1e-9;
}

int main(int argc, char **argv)
{
    int frames = argc > 1 ? atoi(argv[1]) : 200;
    static int32_t soft[SENT];
    static uint64_t words[STEPS], a[STATES], b[STATES];
    static uint8_t mine[BITS], theirs[BITS];
    double best_proved = 1e9, best_plain = 1e9;
    int bad = 0;
    tables();
    for (int f = 0; f < frames; f++) {
        unsigned r = 0;
        for (int k = 0; k < STEPS; k++) {
            unsigned bit = k < BITS ? next_random() >> 40 & 1 : 0;
            unsigned reg = 64 * bit + r;
            int code[2] = {__builtin_parity(reg & 0133), __builtin_parity(reg & 0171)};
            for (int i = 0; i < 2; i++) {
                int64_t noise = (int64_t)(next_random() % 3000) - 1500 + (int64_t)(next_random() % 3000) - 1500;
                int64_t v = (code[i] ? 1000 : -1000) + noise;
                soft[2 * k + i] = f % 5 == 4 ? (int32_t)next_random() : (int32_t)v;
            }
            r = reg / 2;
        }
        uint64_t total = 0;
        double t0 = seconds();
        int refused = nearest_long_sum(BITS, soft, SENT, words, STEPS, a, STATES, b, STATES, mine, BITS, &total);
        double t1 = seconds();
        uint64_t sum = plain(soft, words, a, b, theirs);
        double t2 = seconds();
        if (refused || total != sum || memcmp(mine, theirs, BITS))
            bad++;
        double p = (t1 - t0) * 1e9 / BITS, q = (t2 - t1) * 1e9 / BITS;
        if (p < best_proved)
            best_proved = p;
        if (q < best_plain)
            best_plain = q;
    }
    printf("proved %.1f ns a bit, plain C %.1f ns a bit, ratio %.2f; %d of %d frames agree\n", best_proved, best_plain,
           best_proved / best_plain, frames - bad, frames);
    return bad != 0;
}
