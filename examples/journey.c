/* The journey of one board key: dealt to 16 holders, judged by all of them, kept, combined, opened by seven, its shares refreshed by a zero dealing and
 * opened again, two slips for one share settled; then a dealer that lies; then twin boards, whose keys are tied by a public map; then door timings, numbers
 * below zero as well. Exit status 1 when anything is not as expected. To build and run, in the repository's folder:
 *
 *   tools/archive
 *   cc -Wall -Wextra -O2 -Iinclude -o target/journey examples/journey.c target/staticlib/libc_api.a && target/journey
 */
#include <stdio.h>
#include <stdlib.h>
#include <string.h>

#include "mavdrusek.h"

/* The setup of every board key. */
enum { P = 257, L = 4, E = 3, N = 16, D = L + E, KEY = L * L, DEALING = 1, ZERO_DEALING = 2 };
#define SETUP P, L, E, N

static uint16_t matrix[N * D], gs[N * D], hs[N * D];
/* Every holder's shares and their rounds. The holders of a new dealing agree on its round, here 0. */
static uint16_t shares[N][L], rounds[N][L];
/* Of twin boards: the parts and the shares of the second. */
static uint16_t gs2[N * D], hs2[N * D], shares2[N][L];
/* Of a zero dealing: the parts, with e entries in a column part, and the shares. */
static uint16_t zero_gs[N * D], zero_hs[N * E], zeros[N][L];

/* The map of twin boards: position k of the twin's column is row k of it times the column. */
static const uint16_t phi[KEY] = {1, 2, 0, 0, 0, 1, 3, 0, 0, 0, 1, 4, 5, 0, 0, 1};

static void expect(int is_so, const char *what)
{
    if (!is_so) {
        printf("not as expected: %s\n", what);
        exit(1);
    }
}

/* A fixed generator, so that the example prints the same each time. A real dealer must draw each entry evenly below p from a secure source:
 * whoever can guess the random entries learns the key from a single part. */
static uint16_t drawn_below(uint16_t p)
{
    static uint64_t state = 2014;
    state = state * 6364136223846793005u + 1442695040888963407u;
    return (uint16_t)((state >> 33) % p);
}

static uint16_t drawn(void)
{
    return drawn_below(P);
}

/* The values that a holder receives, one from everyone, itself included. */
static void exchange(const uint16_t *rows, uint16_t holder, uint16_t *values)
{
    for (int j = 0; j < N; j++)
        expect(mavdrusek_pair_value(SETUP, matrix, N * D, rows + j * D, D, holder, &values[j]) == 0, "a pair value");
}

/* Everyone's verdict on the parts as they were dealt, and whom a reject names. */
static void judge_all(const uint16_t *rows, const uint16_t *columns, uint16_t *verdicts, uint16_t *named)
{
    for (uint16_t i = 0; i < N; i++) {
        uint16_t values[N];
        exchange(rows, i, values);
        expect(mavdrusek_judge(SETUP, matrix, N * D, columns + i * D, D, values, N, &verdicts[i], &named[i]) == 0, "a judgement");
    }
}

/* Everyone's verdict on both dealings of twin boards, and whom a reject names. */
static void judge_all_mapped(uint16_t *verdicts, uint16_t *named)
{
    for (uint16_t i = 0; i < N; i++) {
        uint16_t values[N], values2[N];
        exchange(gs, i, values);
        exchange(gs2, i, values2);
        expect(mavdrusek_judge_mapped(SETUP, matrix, N * D, hs + i * D, D, values, N, phi, KEY, hs2 + i * D, D, values2, N, &verdicts[i],
                                      &named[i]) == 0,
               "a judgement of both");
    }
}

/* Everyone's verdict on a zero dealing, and whom a reject names. */
static void judge_all_zero(uint16_t *verdicts, uint16_t *named)
{
    for (uint16_t i = 0; i < N; i++) {
        uint16_t values[N];
        exchange(zero_gs, i, values);
        expect(mavdrusek_judge_zero(SETUP, matrix, N * D, zero_hs + i * E, E, values, N, &verdicts[i], &named[i]) == 0, "a judgement of zeros");
    }
}

/* Opens a column or a combination of columns by the holders in a set; its shares by rising holder, with their rounds. */
static uint16_t open_combination(uint32_t set, const uint16_t *by_holder, const uint16_t *at_round, uint16_t *secrets, uint16_t *position)
{
    uint16_t handed[N], handed_rounds[N];
    size_t count = 0;
    for (int i = 0; i < N; i++)
        if (set >> i & 1) {
            handed[count] = by_holder[i];
            handed_rounds[count++] = at_round[i];
        }
    return mavdrusek_open(SETUP, matrix, N * D, set, handed, count, handed_rounds, count, secrets, L, position);
}

/* Opens a key by the holders in a set: their shares of column 0 by rising holder, then those of columns 1, 2 and 3, and the rounds in the same order. */
static uint16_t open_key(uint32_t set, uint8_t *key, uint16_t *position)
{
    uint16_t handed[N * L], handed_rounds[N * L];
    size_t count = 0;
    for (int b = 0; b < L; b++)
        for (int i = 0; i < N; i++)
            if (set >> i & 1) {
                handed[count] = shares[i][b];
                handed_rounds[count++] = rounds[i][b];
            }
    return mavdrusek_open_key(set, handed, count, handed_rounds, count, key, KEY, position);
}

/* The records of a holder's file and the SH, by their lengths, and the numbers that a file is read into. */
enum { SU = 10 + 2 * N * D, DL = 6 + 4 * D, DF = DL + 2 * KEY, DZ = 6 + 2 * D + 2 * E, PV = 10, PF = PV, VD = 8, SH = 12, CONTENTS = 27 };

/* What a file is of, as its contents have it: a dealing, twin boards, or a zero dealing. */
enum kind { PLAIN, TWIN, ZEROS };

/* Writes a holder's file: the setup, its part, the values it received and everyone's verdict; of twin boards also the part of the second with the map, and
 * the values received in it. Gives its length. */
static size_t write_file(enum kind kind, uint16_t holder, const uint16_t *verdicts, uint8_t *file)
{
    uint8_t *at = file;
    uint16_t values[N], number = kind == ZEROS ? ZERO_DEALING : DEALING;
    expect(mavdrusek_write_setup(SETUP, matrix, N * D, at, SU) == 0, "SU");
    at += SU;
    if (kind == ZEROS) {
        expect(mavdrusek_write_zero_dealing(SETUP, number, holder, zero_gs + holder * D, D, zero_hs + holder * E, E, at, DZ) == 0, "DZ");
        at += DZ;
    } else {
        expect(mavdrusek_write_dealing(SETUP, number, holder, gs + holder * D, D, hs + holder * D, D, at, DL) == 0, "DL");
        at += DL;
    }
    if (kind == TWIN) {
        expect(mavdrusek_write_mapped_dealing(SETUP, number, holder, gs2 + holder * D, D, hs2 + holder * D, D, phi, KEY, at, DF) == 0, "DF");
        at += DF;
    }
    exchange(kind == ZEROS ? zero_gs : gs, holder, values);
    for (uint16_t j = 0; j < N; j++, at += PV)
        expect(mavdrusek_write_pair_value(SETUP, number, j, holder, values[j], at, PV) == 0, "PV");
    if (kind == TWIN) {
        exchange(gs2, holder, values);
        for (uint16_t j = 0; j < N; j++, at += PF)
            expect(mavdrusek_write_mapped_pair_value(SETUP, number, j, holder, values[j], at, PF) == 0, "PF");
    }
    for (uint16_t j = 0; j < N; j++, at += VD)
        expect(mavdrusek_write_verdict(SETUP, number, j, verdicts[j], at, VD) == 0, "VD");
    return (size_t)(at - file);
}

/* A holder's file, read back and printed; gives its length. */
static size_t print_file(enum kind kind, uint16_t holder, const uint16_t *verdicts, uint8_t *file)
{
    uint8_t out[512];
    uint16_t contents[CONTENTS];
    size_t length = write_file(kind, holder, verdicts, file), count, byte = 0;
    expect(mavdrusek_read_file(file, length, contents, CONTENTS, &byte) == 0, "the holder's file");
    expect(contents[0] == P, "the setup");
    expect(contents[4] == (kind == ZEROS ? ZERO_DEALING : DEALING) && contents[5] == holder && contents[6] == 1 && contents[8] == 1, "accept and kept");
    expect(memcmp(contents + 10, kind == ZEROS ? zeros[holder] : shares[holder], sizeof shares[holder]) == 0, "the shares kept");
    expect(contents[18] == kind, "what the file is of");
    expect(kind != TWIN || memcmp(contents + 19, shares2[holder], sizeof shares2[holder]) == 0, "the twin's shares kept");
    expect(mavdrusek_holder_file(file, length, out, sizeof out, &count, &byte) == 0, "the file's text");
    expect(strncmp((char *)out, "setup 257 4 3 16\n", 17) == 0, "the text's first line");
    printf("holder %d's file prints\n", holder);
    for (size_t k = 0; k < count; k++)
        printf("%s%c", k == 0 || out[k - 1] == '\n' ? "    " : "", out[k]);
    return length;
}

/* A holder's file, and that it is refused where it is damaged. */
static void show_file(uint16_t holder, const uint16_t *verdicts)
{
    uint8_t file[SU + DL + N * PV + N * VD];
    uint16_t contents[CONTENTS];
    size_t byte = 0;
    expect(print_file(PLAIN, holder, verdicts, file) == sizeof file, "the file's length");
    /* A value of p in its first PV, the record behind SU and DL. */
    file[SU + DL + 8] = P % 256;
    file[SU + DL + 9] = P / 256;
    uint16_t refusal = mavdrusek_read_file(file, sizeof file, contents, CONTENTS, &byte);
    expect(refusal == 4 && byte == SU + DL, "a damaged file is refused");
    printf("the same with a value of 257: refused %d at %zu\n", refusal, byte);
}

/* Opens a column of a new dealing, at round 0, by the holders in a set, from the shares of all. */
static void open_column(uint32_t set, uint16_t all[N][L], int b, uint16_t *secrets)
{
    uint16_t of_column[N], at_round[N] = {0}, position;
    for (int i = 0; i < N; i++)
        of_column[i] = all[i][b];
    expect(open_combination(set, of_column, at_round, secrets, &position) == 0, "a column opens");
}

/* Deals zeros to all holders. */
static void deal_zeros(void)
{
    enum { RANDOM = E * D };
    uint16_t random[RANDOM];
    for (int k = 0; k < RANDOM; k++)
        random[k] = drawn();
    expect(mavdrusek_deal_zero_all(SETUP, matrix, N * D, random, RANDOM, zero_gs, N * D, zero_hs, N * E) == 0, "a zero dealing");
}

/* Fresh shares for old drawers: a zero dealing, whose columns all open to zeros, is dealt, judged and added to the key's shares. The key stays, and what
 * was copied from a drawer before no longer goes with the shares of the others. */
static void refresh_shares(const uint8_t *key, uint32_t seven)
{
    uint8_t file[SU + DZ + N * PV + N * VD], opened[KEY] = {0};
    const uint8_t untouched[KEY] = {0};
    uint16_t verdicts[N], named[N], kept, first, position = 0;
    deal_zeros();
    judge_all_zero(verdicts, named);
    for (int i = 0; i < N; i++) {
        expect(verdicts[i] == 1, "accept of the zeros");
        expect(mavdrusek_outcome(SETUP, zero_gs + i * D, D, verdicts, N, zeros[i], L, &kept, &first) == 0 && kept == 1, "kept of the zeros");
    }
    printf("zeros dealt to %d holders: all accept\n", N);
    expect(print_file(ZEROS, 3, verdicts, file) == sizeof file, "the file's length");

    /* Every holder adds its zero share of each column; one copy of a share is left in a drawer. */
    uint16_t copied = shares[5][0], copied_round = rounds[5][0];
    for (int i = 0; i < N; i++)
        for (int b = 0; b < L; b++)
            expect(mavdrusek_refresh(P, shares[i][b], rounds[i][b], zeros[i][b], &shares[i][b], &rounds[i][b]) == 0 && rounds[i][b] == 1, "a refresh");
    expect(open_key(seven, opened, &position) == 0 && memcmp(opened, key, KEY) == 0, "the key at round 1");
    printf("refreshed: holder 3's shares at round %d are %d %d %d %d; opened by seven: \"%.*s\"\n", rounds[3][0], shares[3][0], shares[3][1],
           shares[3][2], shares[3][3], KEY, (char *)opened);

    /* Two slips for one share in a drawer, the copied one and the fresh one: the fresh one supersedes, whichever comes first. */
    uint8_t old_slip[SH], fresh_slip[SH];
    uint16_t which, fresh = shares[5][0];
    expect(mavdrusek_write_share(SETUP, DEALING, 5, 0, copied, copied_round, old_slip, SH) == 0, "the old SH");
    expect(mavdrusek_write_share(SETUP, DEALING, 5, 0, fresh, rounds[5][0], fresh_slip, SH) == 0, "the fresh SH");
    expect(mavdrusek_superseding(SETUP, old_slip, SH, fresh_slip, SH, &which) == 0 && which == 2, "the second supersedes");
    expect(mavdrusek_superseding(SETUP, fresh_slip, SH, old_slip, SH, &which) == 0 && which == 1, "the first supersedes");
    printf("two slips for holder 5's share of column 0: the one at round %d supersedes\n", rounds[5][0]);

    /* The copied share among the fresh ones: its round is another, and under their round it is a false share. */
    memcpy(opened, untouched, KEY);
    shares[5][0] = copied;
    rounds[5][0] = copied_round;
    uint16_t refusal = open_key(0xff, opened, &position);
    expect(refusal == 19, "an old share with new ones");
    rounds[5][0] = 1;
    expect(open_key(0xff, opened, &position) == 7, "an old share under the new round");
    expect(memcmp(opened, untouched, KEY) == 0, "a refused opening writes no byte");
    printf("an old share among eight: refused %d; under the new round it is refused as a false one\n", refusal);
    shares[5][0] = fresh;

    /* A dealer that lies about the zeros: one entry of holder 5's row part is changed. */
    deal_zeros();
    zero_gs[5 * D] = (zero_gs[5 * D] + 1) % P;
    judge_all_zero(verdicts, named);
    for (int i = 0; i < N; i++)
        expect(verdicts[i] == 0 && named[i] == 5, "everyone names holder 5");
    expect(mavdrusek_outcome(SETUP, zero_gs, D, verdicts, N, zeros[0], L, &kept, &first) == 0 && kept == 0 && first == 0, "aborted by holder 0");
    printf("a lie in holder 5's zeros: everyone rejects and names 5; aborted by holder 0\n");
}

/* Twin boards: two keys tied by a public map are dealt together, and the holders check the map as well. */
static void twin_boards(const uint8_t *key, uint32_t seven)
{
    enum { RANDOM = D * D - KEY, RANDOM2 = E * D };
    uint16_t array[KEY], random[RANDOM], random2[RANDOM2], verdicts[N], named[N], kept, first, column[L], twin[L];
    uint8_t file[SU + DL + DF + N * PV + N * PF + N * VD];
    for (int k = 0; k < KEY; k++)
        array[k] = key[k];
    for (int k = 0; k < RANDOM; k++)
        random[k] = drawn();
    for (int k = 0; k < RANDOM2; k++)
        random2[k] = drawn();
    expect(mavdrusek_deal_mapped_all(SETUP, matrix, N * D, array, KEY, random, RANDOM, phi, KEY, random2, RANDOM2, gs, N * D, hs, N * D, gs2, N * D,
                                     hs2, N * D) == 0,
           "a dealing with a map");
    judge_all_mapped(verdicts, named);
    for (int i = 0; i < N; i++) {
        expect(verdicts[i] == 1, "accept of both and the map");
        expect(mavdrusek_outcome(SETUP, gs + i * D, D, verdicts, N, shares[i], L, &kept, &first) == 0 && kept == 1, "kept");
        expect(mavdrusek_outcome(SETUP, gs2 + i * D, D, verdicts, N, shares2[i], L, &kept, &first) == 0 && kept == 1, "kept of the twin");
    }
    printf("twin boards: two keys tied by a map dealt to %d holders; all accept both and the map\n", N);
    expect(print_file(TWIN, 3, verdicts, file) == sizeof file, "the file's length");

    /* Seven open a column of both: the second is the map of the first. */
    open_column(seven, shares, 1, column);
    open_column(seven, shares2, 1, twin);
    for (int k = 0; k < L; k++) {
        uint32_t image = 0;
        for (int c = 0; c < L; c++)
            image += (uint32_t)phi[k * L + c] * column[c];
        expect(column[k] == key[L + k] && twin[k] == image % P, "a column and its map");
    }
    printf("opened by seven: column 1 is %d %d %d %d, the twin's is its map, %d %d %d %d\n", column[0], column[1], column[2], column[3], twin[0], twin[1],
           twin[2], twin[3]);

    /* A dealer whose second dealing is sound, but of another key than the map gives: all values agree, and the check of the map fails. */
    for (int k = 0; k < RANDOM; k++)
        random[k] = drawn();
    expect(mavdrusek_deal_all(SETUP, matrix, N * D, array, KEY, random, RANDOM, gs2, N * D, hs2, N * D) == 0, "a dealing of another key");
    judge_all_mapped(verdicts, named);
    for (int i = 0; i < N; i++)
        expect(verdicts[i] == 0 && named[i] == 65535, "reject map");
    expect(mavdrusek_outcome(SETUP, gs2, D, verdicts, N, shares2[0], L, &kept, &first) == 0 && kept == 0 && first == 0, "aborted by holder 0");
    printf("a twin's key that is not the map: everyone says reject map; aborted by holder 0\n");
}

/* The setup of door timings: three doors on three days, dealt to seven holders, of whom any five open. Corrections are held with p 65521. */
enum { TIMINGS_P = 65521, DOORS = 3, DAYS = DOORS, TIMINGS_E = 2, DEPOTS = 7, ROW = DOORS + TIMINGS_E };
#define TIMINGS TIMINGS_P, DOORS, TIMINGS_E, DEPOTS

/* Door timings: corrections in hundredths of a second, below zero as well, held as field elements, dealt, combined with signed constants and opened. */
static void door_timings(void)
{
    enum { ALL = DAYS * DOORS, RANDOM = ROW * ROW - ALL, TERMS = 2 };
    const int32_t corrections[ALL] = {120, -45, -16380, -3000, 20000, 0, 32760, -32760, 1}, constants[TERMS] = {2, -1}, beyond = 32761;
    const uint32_t five = 1 << 0 | 1 << 2 | 1 << 3 | 1 << 5 | 1 << 6;
    uint16_t points[DEPOTS * ROW], held[ALL], random[RANDOM], rows[DEPOTS * ROW], columns[DEPOTS * ROW], fair, checker, sender;
    uint16_t handed[DEPOTS], at_round[DEPOTS], position, elements[DOORS];
    int32_t opened[DOORS], read[DOORS];
    size_t count = 0;
    expect(mavdrusek_points(TIMINGS, points, DEPOTS * ROW) == 0, "a points matrix of 65521");
    expect(mavdrusek_hold_corrections(TIMINGS_P, corrections, ALL, held, ALL) == 0 && held[1] == 65476, "the corrections held");
    for (int k = 0; k < RANDOM; k++)
        random[k] = drawn_below(TIMINGS_P);
    expect(mavdrusek_deal_all(TIMINGS, points, DEPOTS * ROW, held, ALL, random, RANDOM, rows, DEPOTS * ROW, columns, DEPOTS * ROW) == 0,
           "a dealing of corrections");
    expect(mavdrusek_rehearse(TIMINGS, points, DEPOTS * ROW, rows, DEPOTS * ROW, columns, DEPOTS * ROW, &fair, &checker, &sender) == 0 && fair == 1,
           "a fair rehearsal");
    printf("door timings: corrections of three doors on three days dealt to %d holders; %d is held as %d\n", DEPOTS, (int)corrections[1], held[1]);

    /* Five of them open twice the first day less the second. Their shares are at round 0. */
    for (int i = 0; i < DEPOTS; i++)
        if (five >> i & 1) {
            const uint16_t their_rounds[TERMS] = {0, 0};
            expect(mavdrusek_combine_signed(TIMINGS_P, constants, TERMS, rows + i * ROW, TERMS, their_rounds, TERMS, &handed[count],
                                            &at_round[count]) == 0,
                   "a combination with signed constants");
            count++;
        }
    expect(mavdrusek_open_signed(TIMINGS, points, DEPOTS * ROW, five, handed, count, at_round, count, opened, DOORS, &position) == 0,
           "the combination of corrections opens");
    for (int k = 0; k < DOORS; k++)
        expect(opened[k] == 2 * corrections[k] - corrections[DOORS + k], "the exact sum");
    printf("opened by five: 2 * day 0 - day 1 is %d %d %d\n", (int)opened[0], (int)opened[1], (int)opened[2]);
    /* The same from the elements that a plain opening gives. */
    expect(mavdrusek_open(TIMINGS, points, DEPOTS * ROW, five, handed, count, at_round, count, elements, DOORS, &position) == 0, "its elements");
    expect(mavdrusek_read_corrections(TIMINGS_P, elements, DOORS, read, DOORS) == 0 && memcmp(read, opened, sizeof read) == 0, "read back");

    /* One hundredth beyond the range is refused, as a correction and as a constant. */
    uint16_t refusal = mavdrusek_hold_corrections(TIMINGS_P, &beyond, 1, held, 1);
    expect(refusal == 22 && held[0] == 120, "a correction beyond the range");
    expect(mavdrusek_combine_signed(TIMINGS_P, &beyond, 1, rows, 1, at_round, 1, &handed[0], &position) == 22, "a constant beyond the range");
    printf("a correction of %d: refused %d\n", (int)beyond, refusal);
}

int main(void)
{
    const char *text = "sixteen-byte key";
    uint8_t key[KEY], opened[KEY] = {0};
    const uint8_t untouched[KEY] = {0};
    uint16_t random[D * D - KEY], array[KEY];
    uint16_t verdicts[N], named[N], kept, first, position = 0, yes, kind, steps, fair, checker, sender;
    uint16_t column[L], combined[N], at_round[N], row[32];

    /* The matrix of board keys, a points matrix, which dealing and opening have built in: any 7 holders determine the key, any 3 are private. */
    expect(mavdrusek_points(SETUP, matrix, N * D) == 0, "the points matrix");
    printf("points matrix: %d rows of %d\n", N, D);

    /* The dealer: a key of 16 bytes as four columns of four. */
    memcpy(key, text, KEY);
    for (int k = 0; k < D * D - KEY; k++)
        random[k] = drawn();
    expect(mavdrusek_deal_key(key, KEY, random, D * D - KEY, gs, N * D, hs, N * D) == 0, "a dealing");
    expect(mavdrusek_rehearse(SETUP, matrix, N * D, gs, N * D, hs, N * D, &fair, &checker, &sender) == 0 && fair == 1, "a fair rehearsal");
    printf("dealt: four columns to %d holders; the rehearsal is fair\n", N);

    /* The holders: everyone sends everyone a value, judges what it received, and says its verdict. */
    judge_all(gs, hs, verdicts, named);
    for (int i = 0; i < N; i++)
        expect(verdicts[i] == 1, "accept");
    printf("judged: all %d accept\n", N);

    /* Everyone accepts, so everyone keeps its four shares. */
    for (int i = 0; i < N; i++)
        expect(mavdrusek_outcome(SETUP, gs + i * D, D, verdicts, N, shares[i], L, &kept, &first) == 0 && kept == 1, "kept");
    printf("kept: holder 3's shares are %d %d %d %d\n", shares[3][0], shares[3][1], shares[3][2], shares[3][3]);
    show_file(3, verdicts);

    /* Seven holders open: first a combination of two columns, 3 times column 0 and 5 times column 2, then the key. */
    uint32_t seven = 1 << 0 | 1 << 2 | 1 << 4 | 1 << 5 | 1 << 7 | 1 << 10 | 1 << 15;
    expect(mavdrusek_determines(SETUP, matrix, N * D, seven, &yes) == 0 && yes == 1, "seven determine");
    for (int i = 0; i < N; i++) {
        uint16_t constants[2] = {3, 5}, two[2] = {shares[i][0], shares[i][2]}, their_rounds[2] = {rounds[i][0], rounds[i][2]};
        expect(mavdrusek_combine(P, constants, 2, two, 2, their_rounds, 2, &combined[i], &at_round[i]) == 0 && at_round[i] == 0, "a combination");
    }
    expect(open_combination(seven, combined, at_round, column, &position) == 0, "the combination opens");
    for (int k = 0; k < L; k++)
        expect(column[k] == (3 * key[k] + 5 * key[2 * L + k]) % P, "the combination of the columns");
    printf("combined: 3 * column 0 + 5 * column 2 opens to %d %d %d %d\n", column[0], column[1], column[2], column[3]);
    /* The seven's row for position 0, as it is copied onto a card: applied to the combination's shares it gives that position. */
    expect(mavdrusek_judge_set(SETUP, matrix, N * D, seven, 0, row, 32, &kind, &steps) == 0 && kind == 1 && steps == 42, "the seven's row");
    uint32_t applied = 0;
    printf("the seven's row for position 0:");
    for (int i = 0, k = 0; i < N; i++)
        if (seven >> i & 1) {
            printf(" %d", row[k]);
            applied += (uint32_t)row[k++] * combined[i];
        }
    expect(applied % P == column[0], "position 0 by the row");
    printf(", after %d row steps\n", steps);
    expect(open_key(seven, opened, &position) == 0, "the key opens");
    expect(memcmp(opened, key, KEY) == 0, "the key dealt");
    printf("opened by seven: \"%.*s\"\n", KEY, (char *)opened);

    refresh_shares(key, seven);

    /* Six of them cannot, three are private (a sweeping vector for every position), and a changed share among eight is noticed. */
    memcpy(opened, untouched, KEY);
    position = N;
    expect(open_key(seven & ~1u, opened, &position) == 6 && position == 0, "six cannot open");
    expect(mavdrusek_private(SETUP, matrix, N * D, 7, &yes) == 0 && yes == 1, "three are private");
    for (uint16_t k = 0; k < L; k++)
        expect(mavdrusek_judge_set(SETUP, matrix, N * D, 7, k, row, 32, &kind, &steps) == 0 && kind == 2 && steps == 18,
               "three have a sweeping vector for every position");
    shares[5][0] = (shares[5][0] + 1) % P;
    expect(open_key(0xff, opened, &position) == 7, "a changed share is refused");
    expect(memcmp(opened, untouched, KEY) == 0, "a refused opening writes no byte");
    printf("six cannot open, three are private, a changed share among eight is refused\n");

    /* A dealer that lies: one entry of holder 5's row part is changed. */
    uint16_t *entry = &gs[5 * D + 2];
    *entry = (*entry + 1) % P;
    judge_all(gs, hs, verdicts, named);
    for (int i = 0; i < N; i++)
        expect(verdicts[i] == 0 && named[i] == 5, "everyone names holder 5");
    expect(mavdrusek_outcome(SETUP, gs, D, verdicts, N, shares[0], L, &kept, &first) == 0 && kept == 0 && first == 0, "aborted by holder 0");
    expect(mavdrusek_rehearse(SETUP, matrix, N * D, gs, N * D, hs, N * D, &fair, &checker, &sender) == 0, "a rehearsal");
    expect(fair == 0 && checker == 0 && sender == 5, "the rehearsal names the pair");
    printf("a lie in holder 5's row: everyone rejects and names 5; aborted by holder 0\n");
    *entry = (*entry + P - 1) % P;

    /* The same in holder 9's column part: holder 9 alone notices, and that is enough. */
    hs[9 * D] = (hs[9 * D] + 1) % P;
    judge_all(gs, hs, verdicts, named);
    for (int i = 0; i < N; i++)
        expect(verdicts[i] == (i != 9), "holder 9 alone rejects");
    expect(named[9] == 0, "holder 9 names 0");
    expect(mavdrusek_outcome(SETUP, gs, D, verdicts, N, shares[0], L, &kept, &first) == 0 && kept == 0 && first == 9, "aborted by holder 9");
    printf("a lie in holder 9's column: holder 9 rejects and names 0; aborted by holder 9\n");

    /* A dealer that deals 256 where a byte belongs, with new random entries, as each dealing needs: every holder accepts, for the parts agree, but what
     * opens is no key. */
    for (int k = 0; k < KEY; k++)
        array[k] = k == 6 ? 256 : key[k];
    for (int k = 0; k < D * D - KEY; k++)
        random[k] = drawn();
    expect(mavdrusek_deal_all(SETUP, matrix, N * D, array, KEY, random, D * D - KEY, gs, N * D, hs, N * D) == 0, "a dealing of 256");
    judge_all(gs, hs, verdicts, named);
    for (int i = 0; i < N; i++)
        expect(mavdrusek_outcome(SETUP, gs + i * D, D, verdicts, N, shares[i], L, &kept, &first) == 0 && kept == 1, "kept");
    memset(rounds, 0, sizeof rounds);
    uint16_t refusal = open_key(0xffff, opened, &position);
    expect(refusal == 16 && memcmp(opened, untouched, KEY) == 0, "no key");
    printf("256 dealt for a byte: all accept; opened by all, it is no key: refused %d\n", refusal);

    twin_boards(key, seven);
    door_timings();
    return 0;
}
