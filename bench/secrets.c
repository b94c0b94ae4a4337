/* Calls that work on secrets, run under valgrind by bench/secrets:
 *   secrets draw P SEED                     writes secret entries below P (seed 0: all 0; seed 1: all P - 1; seed 99: the first is P, to be refused)
 *   secrets CALL P L E N UNDEFINED          reads them and makes the call, with so many low bits of each entry marked undefined
 * The calls `branching` and `indexing` leak on purpose: bench/secrets must notice both. */
#include <stdint.h>
#include <stdio.h>
#include <stdlib.h>
#include <string.h>
#include <valgrind/memcheck.h>

#include "mavdrusek.h"

#define MOST 512

static uint16_t secret[MOST], matrix[MOST], phi[64], gs[MOST], hs[MOST], gs2[MOST], hs2[MOST], value, at;

static struct { uint16_t p, l, e, n, d; } s;

#define SETUP s.p, s.l, s.e, s.n
#define ENTRIES ((size_t)s.n * s.d)

/* Each call on the secret entries; matrix, setup, map, holders, rounds and signed constants are public. It must not be refused. */
static uint16_t deal(void)
{
    size_t keys = (size_t)s.l * s.l, random = (size_t)s.d * s.d - keys;
    uint16_t refused = 0;
    for (uint16_t i = 0; i < s.n; i++)
        refused |= mavdrusek_deal(SETUP, matrix, ENTRIES, secret, keys, secret + keys, random, i, gs, s.d, hs, s.d);
    return refused;
}

static uint16_t deal_all(void)
{
    size_t keys = (size_t)s.l * s.l, random = (size_t)s.d * s.d - keys;
    return mavdrusek_deal_all(SETUP, matrix, ENTRIES, secret, keys, secret + keys, random, gs, ENTRIES, hs, ENTRIES);
}

/* The secret entries are the secrets, the random entries and the second random entries, one behind the other. */
static uint16_t deal_mapped(void)
{
    size_t keys = (size_t)s.l * s.l, random = (size_t)s.d * s.d - keys, random2 = (size_t)s.e * s.d;
    uint16_t refused = 0;
    for (uint16_t i = 0; i < s.n; i++)
        refused |= mavdrusek_deal_mapped(SETUP, matrix, ENTRIES, secret, keys, secret + keys, random, phi, keys, secret + keys + random, random2, i, gs,
                                         s.d, hs, s.d, gs2, s.d, hs2, s.d);
    return refused;
}

static uint16_t deal_mapped_all(void)
{
    size_t keys = (size_t)s.l * s.l, random = (size_t)s.d * s.d - keys, random2 = (size_t)s.e * s.d;
    return mavdrusek_deal_mapped_all(SETUP, matrix, ENTRIES, secret, keys, secret + keys, random, phi, keys, secret + keys + random, random2, gs, ENTRIES,
                                     hs, ENTRIES, gs2, ENTRIES, hs2, ENTRIES);
}

/* The secret entries are the random ones. */
static uint16_t deal_zero(void)
{
    uint16_t refused = 0;
    for (uint16_t i = 0; i < s.n; i++)
        refused |= mavdrusek_deal_zero(SETUP, matrix, ENTRIES, secret, (size_t)s.e * s.d, i, gs, s.d, hs, s.e);
    return refused;
}

static uint16_t deal_zero_all(void)
{
    return mavdrusek_deal_zero_all(SETUP, matrix, ENTRIES, secret, (size_t)s.e * s.d, gs, ENTRIES, hs, (size_t)s.n * s.e);
}

/* The random entries first, so that the one of P that draw puts in front is refused; a byte is an entry, or 255 for 256. */
static uint16_t deal_key(void)
{
    enum { KEY = 16, RANDOM = 33, PARTS = 112 };
    uint8_t key[KEY];
    for (int k = 0; k < KEY; k++)
        key[k] = (uint8_t)(secret[RANDOM + k] - (secret[RANDOM + k] >> 8));
    return mavdrusek_deal_key(key, KEY, secret, RANDOM, gs, PARTS, hs, PARTS);
}

static uint16_t pair_value(void)
{
    uint16_t refused = 0;
    for (uint16_t i = 0; i < s.n; i++)
        refused |= mavdrusek_pair_value(SETUP, matrix, ENTRIES, secret, s.d, i, &value);
    return refused;
}

static uint16_t combine(void)
{
    static uint16_t rounds[64];
    uint16_t refused = 0;
    for (uint16_t terms = 1; terms <= 64; terms++) {
        for (int k = 0; k < 64; k++)
            rounds[k] = terms;
        refused |= mavdrusek_combine(s.p, secret, terms, secret + 64, terms, rounds, terms, &value, &at);
    }
    return refused;
}

/* The secret entries are the old shares, then the zero shares. */
static uint16_t refresh(void)
{
    uint16_t refused = 0;
    for (uint16_t k = 0; k < 64; k++)
        refused |= mavdrusek_refresh(s.p, secret[k], k, secret[64 + k], &value, &at);
    return refused;
}

/* The secret entries less 32760 are the corrections, so that an entry of p is the first number beyond the range. */
static uint16_t hold_corrections(void)
{
    static int32_t corrections[MOST];
    for (int k = 0; k < MOST; k++)
        corrections[k] = (int32_t)secret[k] - 32760;
    return mavdrusek_hold_corrections(s.p, corrections, MOST, gs, MOST);
}

/* The secret entries are the shares. */
static uint16_t combine_signed(void)
{
    static uint16_t rounds[64];
    static int32_t constants[64];
    uint16_t refused = 0;
    for (int k = 0; k < 64; k++)
        constants[k] = 1040 * k - 32760;
    for (uint16_t terms = 1; terms <= 64; terms++) {
        for (int k = 0; k < 64; k++)
            rounds[k] = terms;
        refused |= mavdrusek_combine_signed(s.p, constants, terms, secret, terms, rounds, terms, &value, &at);
    }
    return refused;
}

static uint16_t branching(void)
{
    volatile uint16_t sum = 0;
    if (secret[0] % 2 == 1)
        sum = sum + 1;
    return 0;
}

static uint16_t indexing(void)
{
    static volatile uint16_t table[1 << 16];
    value = table[secret[0]];
    return 0;
}

static const struct { const char *name; uint16_t (*run)(void); } calls[] = {
    {"deal", deal}, {"deal_all", deal_all}, {"deal_mapped", deal_mapped}, {"deal_mapped_all", deal_mapped_all},
    {"deal_zero", deal_zero}, {"deal_zero_all", deal_zero_all}, {"deal_key", deal_key}, {"pair_value", pair_value},
    {"combine", combine}, {"refresh", refresh}, {"hold_corrections", hold_corrections}, {"combine_signed", combine_signed},
    {"branching", branching}, {"indexing", indexing},
};

static void draw(uint16_t p, uint64_t seed)
{
    uint64_t state = seed;
    for (int k = 0; k < MOST; k++) {
        state = state * 6364136223846793005u + 1442695040888963407u;
        secret[k] = seed == 0 ? 0 : seed == 1 ? p - 1 : (uint16_t)((state >> 33) % p);
    }
    if (seed == 99)
        secret[0] = p;
    fwrite(secret, 2, MOST, stdout);
}

/* Marks the low bits undefined. Whatever they are, the entry is below p: whether an entry is refused is no secret. */
static void mark(unsigned low)
{
    static uint16_t bits[MOST];
    for (int k = 0; k < MOST; k++) {
        bits[k] = (uint16_t)((1u << low) - 1);
        secret[k] &= bits[k];
    }
    (void)VALGRIND_SET_VBITS(secret, bits, sizeof secret);
}

int main(int count, char **words)
{
    if (count == 4 && strcmp(words[1], "draw") == 0) {
        draw((uint16_t)atoi(words[2]), (uint64_t)atoi(words[3]));
        return 0;
    }
    if (count != 7 || fread(secret, 2, MOST, stdin) != MOST)
        return 2;
    s.p = (uint16_t)atoi(words[2]), s.l = (uint16_t)atoi(words[3]), s.e = (uint16_t)atoi(words[4]), s.n = (uint16_t)atoi(words[5]);
    s.d = s.l + s.e;
    for (size_t k = 0; k < ENTRIES; k++)
        matrix[k] = (uint16_t)((k * k + 3 * k + 1) % s.p);
    for (size_t k = 0; k < sizeof phi / sizeof *phi; k++)
        phi[k] = (uint16_t)((5 * k * k + k + 2) % s.p);
    if (atoi(words[6]) > 0)
        mark((unsigned)atoi(words[6]));
    for (size_t k = 0; k < sizeof calls / sizeof *calls; k++)
        if (strcmp(words[1], calls[k].name) == 0) {
            VALGRIND_PRINTF("call begins\n");
            uint16_t refused = calls[k].run();
            VALGRIND_PRINTF("call ends\n");
            (void)VALGRIND_MAKE_MEM_DEFINED(&refused, sizeof refused);
            return refused != 0;
        }
    return 2;
}
