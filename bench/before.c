/* Times dealing, judging, combinations and the calls on sets before and after a change, in turns; bench/before builds and runs it. */
#define _GNU_SOURCE
#include <alloca.h>
#include <stdint.h>
#include <stdio.h>
#include <stdlib.h>
#include <string.h>
#include <time.h>

#include "mavdrusek.h"

enum { TURN = 16, CALLS = 256, ROUNDS = 161 };

/* Both libraries' code lies so many bytes further on. */
#define TEXT(x) #x
#define SHIFTED(x) __asm__(".text\n.skip " TEXT(x) ", 0x90")
SHIFTED(SHIFT);

/* The library before the change has the same functions under other names. */
__typeof__(mavdrusek_deal) before_mavdrusek_deal;
__typeof__(mavdrusek_deal_all) before_mavdrusek_deal_all;
__typeof__(mavdrusek_deal_key) before_mavdrusek_deal_key;
__typeof__(mavdrusek_judge) before_mavdrusek_judge;
__typeof__(mavdrusek_determines) before_mavdrusek_determines;
__typeof__(mavdrusek_private) before_mavdrusek_private;
__typeof__(mavdrusek_judge_set) before_mavdrusek_judge_set;
/* Where it is from before A8 three of them take no rounds. */
#ifdef WITHOUT_ROUNDS
uint16_t before_mavdrusek_open(uint16_t p, uint16_t l, uint16_t e, uint16_t n, const uint16_t *matrix, size_t matrix_len, uint32_t set,
                               const uint16_t *shares, size_t shares_len, uint16_t *secrets, size_t secrets_len, uint16_t *position);
uint16_t before_mavdrusek_open_key(uint32_t set, const uint16_t *shares, size_t shares_len, uint8_t *key, size_t key_len, uint16_t *position);
uint16_t before_mavdrusek_combine(uint16_t p, const uint16_t *constants, size_t constants_len, const uint16_t *shares, size_t shares_len,
                                  uint16_t *value);
#define BEFORE_ROUNDS(rounds, count)
#define BEFORE_ROUND(place)
#else
__typeof__(mavdrusek_open) before_mavdrusek_open;
__typeof__(mavdrusek_open_key) before_mavdrusek_open_key;
__typeof__(mavdrusek_combine) before_mavdrusek_combine;
#define BEFORE_ROUNDS(rounds, count) rounds, count,
#define BEFORE_ROUND(place) , place
#endif
static __typeof__(mavdrusek_deal) *const deal[] = {before_mavdrusek_deal, mavdrusek_deal};
static __typeof__(mavdrusek_deal_all) *const deal_all[] = {before_mavdrusek_deal_all, mavdrusek_deal_all};
static __typeof__(mavdrusek_deal_key) *const deal_key[] = {before_mavdrusek_deal_key, mavdrusek_deal_key};
static __typeof__(mavdrusek_determines) *const determines[] = {before_mavdrusek_determines, mavdrusek_determines};
static __typeof__(mavdrusek_private) *const private[] = {before_mavdrusek_private, mavdrusek_private};
static __typeof__(mavdrusek_judge) *const judge_values[] = {before_mavdrusek_judge, mavdrusek_judge};
static __typeof__(mavdrusek_judge_set) *const judge_set[] = {before_mavdrusek_judge_set, mavdrusek_judge_set};

static uint16_t p, l, e, n, d;
static uint16_t matrix[TURN][512], secrets[TURN][64], entries[TURN][256], over[TURN][256], gs[2][512], hs[2][512];
static uint16_t (*lent)[256] = entries;
static uint8_t keys[TURN][16];
static uint32_t sets[TURN];
static uint16_t members, shares[TURN][32], rounds[TURN][64], values[TURN][32];
/* A key's shares, by a set of the board's holders, in the order of its columns; and a combination's constants and shares. */
static uint16_t key_shares[TURN][64], constants[TURN][64], columns[TURN][64], terms;

static uint16_t one(int which, int t)
{
    return deal[which](p, l, e, n, matrix[t], (size_t)n * d, secrets[t], (size_t)l * l, entries[t], (size_t)d * d - l * l, (uint16_t)(t % n), gs[which], d,
                       hs[which], d);
}

static uint16_t all(int which, int t)
{
    return deal_all[which](p, l, e, n, matrix[t], (size_t)n * d, secrets[t], (size_t)l * l, lent[t], (size_t)d * d - l * l, gs[which], (size_t)n * d,
                           hs[which], (size_t)n * d);
}

static uint16_t key(int which, int t)
{
    return deal_key[which](keys[t], 16, entries[t], 33, gs[which], 112, hs[which], 112);
}

/* The calls on sets. What they write is looked at where the parts are: buffers in gs, and in hs what else they give. */
static uint16_t judge(int which, int t)
{
    return judge_set[which](p, l, e, n, matrix[t], (size_t)n * d, sets[t], (uint16_t)(t % l), gs[which], 32, hs[which], hs[which] + 1);
}

static uint16_t is_determining(int which, int t)
{
    return determines[which](p, l, e, n, matrix[t], (size_t)n * d, sets[t], hs[which]);
}

static uint16_t is_private(int which, int t)
{
    return private[which](p, l, e, n, matrix[t], (size_t)n * d, sets[t], hs[which]);
}

/* By too few members it is refused. */
static uint16_t opening(int which, int t)
{
    hs[which][1] = which ? mavdrusek_open(p, l, e, n, matrix[t], (size_t)n * d, sets[t], shares[t], members, rounds[t], members, gs[1], l, hs[1])
                         : before_mavdrusek_open(p, l, e, n, matrix[t], (size_t)n * d, sets[t], shares[t], members, BEFORE_ROUNDS(rounds[t], members)
                                                 gs[0], l, hs[0]);
    return 0;
}

/* What it writes are 16 bytes of gs. */
static uint16_t opening_key(int which, int t)
{
    size_t count = (size_t)4 * members;
    return which ? mavdrusek_open_key(sets[t], key_shares[t], count, rounds[t], count, (uint8_t *)gs[1], 16, hs[1])
                 : before_mavdrusek_open_key(sets[t], key_shares[t], count, BEFORE_ROUNDS(rounds[t], count) (uint8_t *)gs[0], 16, hs[0]);
}

/* The round that it gives is looked at only where both give one. */
static uint16_t combining(int which, int t)
{
    static uint16_t round;
    return which ? mavdrusek_combine(p, constants[t], terms, columns[t], terms, rounds[t], terms, gs[1], &round)
                 : before_mavdrusek_combine(p, constants[t], terms, columns[t], terms, BEFORE_ROUNDS(rounds[t], terms) gs[0] BEFORE_ROUND(&round));
}

/* On values that are those of h, and on such as differ at some holder. */
static uint16_t judging(int which, int t)
{
    return judge_values[which](p, l, e, n, matrix[t], (size_t)n * d, entries[t], d, values[t], n, hs[which], hs[which] + 1);
}

static double now(void)
{
    struct timespec t;
    clock_gettime(CLOCK_MONOTONIC, &t);
    return t.tv_sec * 1e9 + t.tv_nsec;
}

static int rising(const void *a, const void *b)
{
    double x = *(const double *)a, y = *(const double *)b;
    return (x > y) - (x < y);
}

/* Dealing to all, refused: the last random entry is p. */
static uint16_t none(int which, int t)
{
    lent = over;
    uint16_t refused = all(which, t);
    lent = entries;
    return refused != 4;
}

/* The time of a call, with the stack so many bytes lower: where the buffers of a call happen to lie makes up to a tenth of its time. */
static double timed(uint16_t (*call)(int, int), int which, size_t lower)
{
    volatile char *space = alloca(lower + 1);
    space[0] = 0;
    double start = now();
    for (int k = 0; k < CALLS; k++)
        call(which, k % TURN);
    return (now() - start) / CALLS;
}

/* One line: the median time of a call before and after, and the median of the rounds' ratios, each round at another place of the stack. */
static void line(const char *name, uint16_t (*call)(int, int))
{
    static double times[2][ROUNDS], ratios[ROUNDS];
    for (int t = 0; t < TURN; t++) {
        memset(gs, 0, sizeof gs);
        memset(hs, 0, sizeof hs);
        if (call(0, t) || call(1, t) || memcmp(gs[0], gs[1], sizeof gs[0]) || memcmp(hs[0], hs[1], sizeof hs[0])) {
            fprintf(stderr, "%s: refused, or the two give different parts or buffers\n", name);
            exit(1);
        }
    }
    for (int round = 0; round < ROUNDS; round++) {
        for (int turn = 0; turn < 2; turn++) {
            int which = (turn + round) % 2;
            times[which][round] = timed(call, which, (size_t)round % 64 * 16);
        }
        ratios[round] = times[1][round] / times[0][round];
    }
    for (int which = 0; which < 2; which++)
        qsort(times[which], ROUNDS, sizeof(double), rising);
    qsort(ratios, ROUNDS, sizeof(double), rising);
    printf("%-13s p %5d, l %d, e %d, n %2d\t%.1f\t%.1f\t%.4f\n", name, p, l, e, n, times[0][ROUNDS / 2], times[1][ROUNDS / 2], ratios[ROUNDS / 2]);
}

static void draw(uint16_t *to, int count)
{
    for (int k = 0; k < count; k++)
        to[k] = (uint16_t)(rand() % p);
}

static void setup(uint16_t a, uint16_t b, uint16_t c, uint16_t holders)
{
    p = a, l = b, e = c, n = holders, d = b + c;
    for (int t = 0; t < TURN; t++) {
        draw(matrix[t], n * d);
        draw(secrets[t], l * l);
        draw(entries[t], d * d - l * l);
        memcpy(over[t], entries[t], sizeof over[t]);
        over[t][d * d - l * l - 1] = p;
        for (int k = 0; k < 16; k++)
            keys[t][k] = (uint8_t)rand();
        for (int k = 0; k < 64; k++)
            rounds[t][k] = (uint16_t)(4095 * t);
        draw(constants[t], 64);
        draw(columns[t], 64);
        /* what holder i is due where h is the first d random entries; in every fourth the value of one holder differs */
        for (int i = 0; i < n; i++) {
            uint64_t sum = t % 4 == 3 && i == t % n;
            for (int c = 0; c < d; c++)
                sum += (uint64_t)matrix[t][i * d + c] * entries[t][c];
            values[t][i] = (uint16_t)(sum % p);
        }
    }
}

/* A key opened by so many of the board's holders. */
static void on_keys(uint16_t size)
{
    members = size;
    for (int t = 0; t < TURN; t++) {
        sets[t] = 0;
        for (int chosen = 0; chosen < size;) {
            uint32_t bit = (uint32_t)1 << rand() % 16;
            chosen += !(sets[t] & bit);
            sets[t] |= bit;
        }
        if (mavdrusek_deal_key(keys[t], 16, entries[t], 33, gs[0], 112, hs[0], 112)) {
            fprintf(stderr, "a key is not dealt\n");
            exit(1);
        }
        for (int b = 0, k = 0; b < 4; b++)
            for (int i = 0; i < 16; i++)
                if (sets[t] >> i & 1)
                    key_shares[t][k++] = gs[0][7 * i + b];
    }
    char name[32];
    snprintf(name, sizeof name, "open_key %d", size);
    line(name, opening_key);
}

static void combinations(void)
{
    static const uint16_t counts[] = {1, 4, 16, 64};
    for (size_t k = 0; k < sizeof counts / sizeof *counts; k++) {
        char name[32];
        terms = counts[k];
        snprintf(name, sizeof name, "combine %d", terms);
        line(name, combining);
    }
}

/* The calls on sets of so many members, with the shares that a drawn vector gives. */
static void on_sets(uint16_t size)
{
    static const struct {
        const char *name;
        uint16_t (*call)(int, int);
    } calls[] = {{"judge_set", judge}, {"determines", is_determining}, {"private", is_private}, {"open", opening}};
    members = size;
    for (int t = 0; t < TURN; t++) {
        uint16_t vector[16];
        draw(vector, d);
        sets[t] = 0;
        for (int chosen = 0; chosen < size;) {
            uint32_t bit = (uint32_t)1 << rand() % n;
            chosen += !(sets[t] & bit);
            sets[t] |= bit;
        }
        for (int i = 0, k = 0; i < n; i++)
            if (sets[t] >> i & 1) {
                uint64_t sum = 0;
                for (int c = 0; c < d; c++)
                    sum += (uint64_t)matrix[t][i * d + c] * vector[c];
                shares[t][k++] = (uint16_t)(sum % p);
            }
    }
    for (size_t k = 0; k < sizeof calls / sizeof *calls; k++) {
        char name[32];
        snprintf(name, sizeof name, "%s %d", calls[k].name, size);
        line(name, calls[k].call);
    }
}

int main(void)
{
    static const uint16_t measured[][4] = {{2, 4, 3, 16}, {7, 1, 1, 3}, {251, 4, 3, 16}, {257, 4, 3, 16}, {65521, 8, 8, 32}};
    static const uint16_t wide[] = {2, 4, 8, 12, 16}, many[] = {1, 2, 3, 4, 5, 8, 12, 20, 32};
    for (size_t k = 0; k < sizeof measured / sizeof *measured; k++) {
        setup(measured[k][0], measured[k][1], measured[k][2], measured[k][3]);
        line("deal", one);
        line("deal_all", all);
        line("refused", none);
        line("judge", judging);
        combinations();
        uint16_t sizes[] = {1, e, d < n ? d : n, n};
        for (int at = 0; at < 4; at++)
            if (at == 0 || sizes[at] > sizes[at - 1])
                on_sets(sizes[at]);
    }
    for (size_t k = 0; k < sizeof wide / sizeof *wide; k++) {
        setup(257, wide[k] / 2, wide[k] / 2, 16);
        line("deal_all", all);
    }
    for (size_t k = 0; k < sizeof many / sizeof *many; k++) {
        setup(257, 4, 3, many[k]);
        line("deal_all", all);
    }
    setup(257, 4, 3, 16);
    line("deal_key", key);
    on_keys(7);
    on_keys(8);
    on_keys(16);
    return 0;
}
