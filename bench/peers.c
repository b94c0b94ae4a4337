/* The peers' work on the same data as the library's: contexts and matrices are made once, which is in the peers' favour; what changes with the key is
 * filled in and read out each time. Where a peer's header is missing, its functions do nothing and `.._here` says so. */
#include <stdint.h>
#include <string.h>

enum { L = 4, D = 7, N = 16, KEY = L * L };

#ifdef WITH_GFSHARE
#include <libgfshare.h>

int gfshare_here(void) { return 1; }

static uint8_t pool[1 << 14];
static unsigned at;
static gfshare_ctx *splitter, *few, *all;

/* libgfshare draws its coefficients inside a split: from a pool that is already filled, as ours are lent. */
static void from_pool(unsigned char *out, unsigned count)
{
    if (at + count > sizeof pool)
        at = 0;
    memcpy(out, pool + at, count);
    at += count;
}

void gfshare_begin(const uint8_t *random, size_t random_len)
{
    static unsigned char numbers[N];
    for (int i = 0; i < N; i++)
        numbers[i] = (unsigned char)(i + 1);
    for (size_t k = 0; k < sizeof pool; k++)
        pool[k] = random[k % random_len];
    gfshare_fill_rand = from_pool;
    splitter = gfshare_ctx_init_enc(numbers, N, D, KEY);
    few = gfshare_ctx_init_dec(numbers, D, KEY);
    all = gfshare_ctx_init_dec(numbers, N, KEY);
}

/* 16 bytes into 16 shares of 16 bytes, any 7 of which give them back. */
void gfshare_split(uint8_t *key, uint8_t *shares)
{
    gfshare_ctx_enc_setsecret(splitter, key);
    for (int i = 0; i < N; i++)
        gfshare_ctx_enc_getshare(splitter, (unsigned char)i, shares + i * KEY);
}

/* By the first 7 shares, or by all 16. It tests nothing. */
void gfshare_combine(int count, uint8_t *shares, uint8_t *key)
{
    gfshare_ctx *ctx = count == D ? few : all;
    for (int i = 0; i < count; i++)
        gfshare_ctx_dec_giveshare(ctx, (unsigned char)i, shares + i * KEY);
    gfshare_ctx_dec_extract(ctx, key);
}
#else
int gfshare_here(void) { return 0; }
void gfshare_begin(const uint8_t *random, size_t random_len) { (void)random, (void)random_len; }
void gfshare_split(uint8_t *key, uint8_t *shares) { (void)key, (void)shares; }
void gfshare_combine(int count, uint8_t *shares, uint8_t *key) { (void)count, (void)shares, (void)key; }
#endif

#ifdef WITH_FLINT
#include <flint/nmod_mat.h>

int flint_here(void) { return 1; }

static nmod_mat_t rows, columns, key_matrix, row_parts, column_parts;
static nmod_mat_t few_rows, few_shares, all_rows, all_shares, joined, solution;

void flint_begin(const uint16_t *matrix)
{
    nmod_mat_init(rows, N, D, 257);
    nmod_mat_init(columns, D, N, 257);
    nmod_mat_init(key_matrix, D, D, 257);
    nmod_mat_init(row_parts, N, D, 257);
    nmod_mat_init(column_parts, D, N, 257);
    nmod_mat_init(few_rows, D, D, 257);
    nmod_mat_init(few_shares, D, L, 257);
    nmod_mat_init(all_rows, N, D, 257);
    nmod_mat_init(all_shares, N, L, 257);
    nmod_mat_init(joined, N, D + L, 257);
    nmod_mat_init(solution, D, L, 257);
    for (int i = 0; i < N; i++)
        for (int c = 0; c < D; c++)
            nmod_mat_entry(rows, i, c) = nmod_mat_entry(columns, c, i) = matrix[i * D + c];
}

/* All parts of a key: M F and F M^T. */
void flint_deal(const uint16_t *secrets, const uint16_t *random, uint16_t *gs, uint16_t *hs)
{
    for (int k = 0; k < D; k++)
        for (int b = 0; b < D; b++)
            nmod_mat_entry(key_matrix, k, b) = k < L && b < L ? secrets[b * L + k] : *random++;
    nmod_mat_mul(row_parts, rows, key_matrix);
    nmod_mat_mul(column_parts, key_matrix, columns);
    for (int i = 0; i < N; i++)
        for (int c = 0; c < D; c++) {
            gs[i * D + c] = (uint16_t)nmod_mat_entry(row_parts, i, c);
            hs[i * D + c] = (uint16_t)nmod_mat_entry(column_parts, c, i);
        }
}

/* Four columns at once; `shares` has a row of 4 for each member. By 7 it is one solve with four right sides; by more members the call must also find
 * out whether the shares agree: FLINT's call for systems that are not square. */
int flint_open(int count, const uint16_t *matrix, const uint16_t *members, const uint16_t *shares, uint16_t *secrets)
{
    nmod_mat_struct *a = count == D ? few_rows : all_rows, *b = count == D ? few_shares : all_shares;
    for (int r = 0; r < count; r++) {
        for (int c = 0; c < D; c++)
            nmod_mat_entry(a, r, c) = matrix[members[r] * D + c];
        for (int k = 0; k < L; k++)
            nmod_mat_entry(b, r, k) = shares[r * L + k];
    }
    int found = count == D ? nmod_mat_solve(solution, a, b) : nmod_mat_can_solve(solution, a, b);
    for (int c = 0; c < L; c++)
        for (int k = 0; k < L; k++)
            secrets[c * L + k] = (uint16_t)nmod_mat_entry(solution, k, c);
    return found;
}

/* The same by a reduction of the rows with the shares beside them. */
int flint_reduce_16(const uint16_t *matrix, const uint16_t *shares, uint16_t *secrets)
{
    for (int r = 0; r < N; r++) {
        for (int c = 0; c < D; c++)
            nmod_mat_entry(joined, r, c) = matrix[r * D + c];
        for (int b = 0; b < L; b++)
            nmod_mat_entry(joined, r, D + b) = shares[r * L + b];
    }
    slong rank = nmod_mat_rref(joined);
    for (int b = 0; b < L; b++)
        for (int k = 0; k < L; k++)
            secrets[b * L + k] = (uint16_t)nmod_mat_entry(joined, k, D + b);
    return rank == D;
}
#else
int flint_here(void) { return 0; }
void flint_begin(const uint16_t *matrix) { (void)matrix; }
void flint_deal(const uint16_t *secrets, const uint16_t *random, uint16_t *gs, uint16_t *hs) { (void)secrets, (void)random, (void)gs, (void)hs; }
int flint_open(int count, const uint16_t *matrix, const uint16_t *members, const uint16_t *shares, uint16_t *secrets)
{
    (void)count, (void)matrix, (void)members, (void)shares, (void)secrets;
    return 0;
}
int flint_reduce_16(const uint16_t *matrix, const uint16_t *shares, uint16_t *secrets)
{
    (void)matrix, (void)shares, (void)secrets;
    return 0;
}
#endif
