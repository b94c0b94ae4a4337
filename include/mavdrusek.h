/* Packed verifiable secret sharing: the calls of the proved library, for C.
 *
 * A setup is passed as its four numbers, and its matrix beside them where a call needs it:
 *   p  one of 2, 7, 251, 257, 65521
 *   l  secret length, 1 to 8          e  randomness length, 1 to 8
 *   n  holders, 1 to 32               d  stands for l + e below
 *   matrix  n * d elements, by rows; row i is holder i's
 * A field element is a number below p. Holders, columns and positions count from 0. A set of holders has bit i for holder i.
 * A round is a number of 16 bits, 0 to 65535, and stands beside every share. A new dealing's shares have the round that its holders agree on, each
 * refresh moves them to the next one, and only shares of one round go together. Rounds are no secret.
 * A correction, in hundredths of a second, is a number from -32760 to 32760; it is held as its remainder modulo p, which is 65521 there.
 *
 * Every function returns 0, or the number of the one refusal. After a refusal every lent buffer and every place keeps its contents, but for one place:
 * refusal 6 of mavdrusek_open, mavdrusek_open_key and mavdrusek_open_signed gives its position, and a refusal of a holder's file the byte where the
 * faulty record starts.
 * The lowest number that applies is given, but 22 comes before all others, 18 and 19 come after 5 and before 6, and 21 before 20:
 *   1  p is none of the five; of corrections and signed constants, p is not 65521
 *   2  l, e or n beyond its limits
 *   3  a length is not the one needed, over 64 terms, or a record is cut short
 *   4  a field element is p or more
 *   5  a holder, column or position out of range, an SH with dealing 0 and a column other than 0, or a set bit at or above n;
 *      in a file also a DF of another holder, or a PV or PF to another holder, than the one of its DL or DZ
 *   6  the opening set does not determine the secrets
 *   7  it does, but no vector gives all the shares
 *   8  another mark than the record's; in a file a mark that has no place there
 *   9  dealing number 0 outside SH; in a file also one that is not that of its DL or DZ
 *  10  in a file: a second SU, DL, DF or DZ, or a second PV, PF or VD from one holder
 *  11  a file ends with a record missing
 *  12  a verdict is neither 0 nor 1
 *  13  in a file: the holder's own VD is not what its own judgement gives
 *  14  retired, and never given: a combination of no shares is 0
 *  15  points matrix with d + n above p
 *  16  an opened position of a board key is 256 and so no byte
 *  17  in a file: a PV, PF or VD that is not the next one due
 *  18  a refresh of a share at round 65535, which is the last
 *  19  shares combined or opened together whose rounds differ, in a board key those of one column
 *  20  two SH of one share with equal rounds and unequal values
 *  21  two SH of different dealings, holders or columns, or of combinations
 *  22  a correction or a signed constant below -32760 or above 32760
 * A reader tests the setup and the buffers that it is lent, then the mark, then the length, then the rest. (mavdrusek_read_setup_matrix knows the length
 * needed only from the record, and tests its buffer after the record's length.) In a file the first faulty record decides, and in it the mark, then the
 * length, then the lowest number; 11 and 13 come last. docs/RECORDS.md has the layout of every record.
 *
 * A pointer must be valid for the length beside it even where that is 0 (any non-null, aligned pointer will do then), and nothing that a call
 * writes may overlap anything else that it is lent. A reader looks at one record at the start of `part`; bytes behind it are not looked at. */
#ifndef MAVDRUSEK_H
#define MAVDRUSEK_H

#include <stddef.h>
#include <stdint.h>

#ifdef __cplusplus
extern "C" {
#endif

/* Whether p is one of the five primes that this library has: 0, or refusal 1 for every other number, prime powers and other primes too. */
uint16_t mavdrusek_field(uint16_t p);

/* ---- Dealing */

/* The points matrix into `matrix`, n * d entries. On it any d holders and no fewer determine the secrets, and any e and no more are private. Refusals 1,
 * 2, 3, 15. */
uint16_t mavdrusek_points(uint16_t p, uint16_t l, uint16_t e, uint16_t n, uint16_t *matrix, size_t matrix_len);

/* Holder `holder`'s part of a dealing: g and h, d entries each. `secrets` has l * l elements, position k of secret vector b at b * l + k; `random`
 * has d * d - l * l elements, the other entries of the paper's F row by row, drawn evenly by the caller. Refusals 1 to 5. */
uint16_t mavdrusek_deal(uint16_t p, uint16_t l, uint16_t e, uint16_t n, const uint16_t *matrix, size_t matrix_len, const uint16_t *secrets,
                        size_t secrets_len, const uint16_t *random, size_t random_len, uint16_t holder, uint16_t *g, size_t g_len, uint16_t *h,
                        size_t h_len);

/* Every holder's part: holder i's g and h at i * d of `gs` and `hs`, n * d entries each. Refusals 1 to 4. */
uint16_t mavdrusek_deal_all(uint16_t p, uint16_t l, uint16_t e, uint16_t n, const uint16_t *matrix, size_t matrix_len, const uint16_t *secrets,
                            size_t secrets_len, const uint16_t *random, size_t random_len, uint16_t *gs, size_t gs_len, uint16_t *hs,
                            size_t hs_len);

/* Holder `holder`'s part of two dealings tied by a public map: g and h as mavdrusek_deal gives them, and g2 and h2 of a second dealing, d entries each.
 * `phi`, the map, has l * l elements by rows: position k of the map of a vector is row k of phi times it. The first l entries of every column of the
 * second array are the map of those of the first, so that column b of the second opens to the map of column b of the first. `random2` has e * d
 * elements, the last e rows of the second array row by row, drawn evenly by the caller and not used elsewhere; phi is no secret. Refusals 1 to 5. */
uint16_t mavdrusek_deal_mapped(uint16_t p, uint16_t l, uint16_t e, uint16_t n, const uint16_t *matrix, size_t matrix_len, const uint16_t *secrets,
                               size_t secrets_len, const uint16_t *random, size_t random_len, const uint16_t *phi, size_t phi_len,
                               const uint16_t *random2, size_t random2_len, uint16_t holder, uint16_t *g, size_t g_len, uint16_t *h, size_t h_len,
                               uint16_t *g2, size_t g2_len, uint16_t *h2, size_t h2_len);

/* Every holder's part of both: holder i's at i * d of `gs`, `hs`, `gs2` and `hs2`, n * d entries each. Refusals 1 to 4. */
uint16_t mavdrusek_deal_mapped_all(uint16_t p, uint16_t l, uint16_t e, uint16_t n, const uint16_t *matrix, size_t matrix_len, const uint16_t *secrets,
                                   size_t secrets_len, const uint16_t *random, size_t random_len, const uint16_t *phi, size_t phi_len,
                                   const uint16_t *random2, size_t random2_len, uint16_t *gs, size_t gs_len, uint16_t *hs, size_t hs_len,
                                   uint16_t *gs2, size_t gs2_len, uint16_t *hs2, size_t hs2_len);

/* Holder `holder`'s part of a zero dealing, whose columns all open to zeros: g, d entries, and h, e entries. `random` has e * d elements, the last e rows
 * of its array row by row, drawn evenly by the caller and not used elsewhere; the l rows above them are 0, so that h has no entries for them. It refreshes
 * the shares of one dealing (mavdrusek_refresh), and every dealing takes a zero dealing of its own. Pair values and the outcome are those of
 * mavdrusek_pair_value and mavdrusek_outcome on g; the judgement is mavdrusek_judge_zero. Refusals 1 to 5. */
uint16_t mavdrusek_deal_zero(uint16_t p, uint16_t l, uint16_t e, uint16_t n, const uint16_t *matrix, size_t matrix_len, const uint16_t *random,
                             size_t random_len, uint16_t holder, uint16_t *g, size_t g_len, uint16_t *h, size_t h_len);

/* Every holder's part: holder i's g at i * d of `gs`, n * d entries, and its h at i * e of `hs`, n * e entries. Refusals 1 to 4. */
uint16_t mavdrusek_deal_zero_all(uint16_t p, uint16_t l, uint16_t e, uint16_t n, const uint16_t *matrix, size_t matrix_len, const uint16_t *random,
                                 size_t random_len, uint16_t *gs, size_t gs_len, uint16_t *hs, size_t hs_len);

/* ---- Judging */

/* The value that the holder with row part g (d entries) sends to holder `to`. Refusals 1 to 5. */
uint16_t mavdrusek_pair_value(uint16_t p, uint16_t l, uint16_t e, uint16_t n, const uint16_t *matrix, size_t matrix_len, const uint16_t *g,
                              size_t g_len, uint16_t to, uint16_t *value);

/* The judgement of the holder with column part h (d entries) on the n values that it received, by sender: *verdict is 1 for accept, and *named keeps
 * its contents; or 0 for reject, and *named is the lowest sender whose value differs. Refusals 1 to 4. */
uint16_t mavdrusek_judge(uint16_t p, uint16_t l, uint16_t e, uint16_t n, const uint16_t *matrix, size_t matrix_len, const uint16_t *h, size_t h_len,
                         const uint16_t *values, size_t values_len, uint16_t *verdict, uint16_t *named);

/* The judgement of both dealings by the holder with column parts h and h2 (d entries each) on the n values that it received in each, by sender, and on
 * the map (l * l elements by rows): *verdict is 1 for accept, and *named keeps its contents; or 0 for reject, and *named is the lowest sender whose value
 * differs in either dealing, or 65535, which is no holder, where all values agree and only the check of the map fails: the first l entries of h2 are not
 * the map of those of h. Pair values and the outcome of the second dealing are those of mavdrusek_pair_value and mavdrusek_outcome on g2. Refusals 1 to
 * 4. */
uint16_t mavdrusek_judge_mapped(uint16_t p, uint16_t l, uint16_t e, uint16_t n, const uint16_t *matrix, size_t matrix_len, const uint16_t *h,
                                size_t h_len, const uint16_t *values, size_t values_len, const uint16_t *phi, size_t phi_len, const uint16_t *h2,
                                size_t h2_len, const uint16_t *values2, size_t values2_len, uint16_t *verdict, uint16_t *named);

/* The judgement of a zero dealing by the holder with column part h (e entries) on the n values that it received, by sender, each checked against the last
 * e entries of the sender's row: *verdict is 1 for accept, and *named keeps its contents; or 0 for reject, and *named is the lowest sender whose value
 * differs. Refusals 1 to 4. */
uint16_t mavdrusek_judge_zero(uint16_t p, uint16_t l, uint16_t e, uint16_t n, const uint16_t *matrix, size_t matrix_len, const uint16_t *h,
                              size_t h_len, const uint16_t *values, size_t values_len, uint16_t *verdict, uint16_t *named);

/* The outcome for the holder with row part g (d entries) on the n verdicts that it received: *kept is 1, the l shares, one for each column, are
 * written, and *named keeps its contents; or *kept is 0, *named is the lowest holder that said reject, and `shares` keeps its contents. Refusals 1 to
 * 4, 12. */
uint16_t mavdrusek_outcome(uint16_t p, uint16_t l, uint16_t e, uint16_t n, const uint16_t *g, size_t g_len, const uint16_t *verdicts,
                           size_t verdicts_len, uint16_t *shares, size_t shares_len, uint16_t *kept, uint16_t *named);

/* The dealer's rehearsal on all parts, laid out as mavdrusek_deal_all writes them: *fair is 1, and *checker and *sender keep their contents; or *fair
 * is 0, and *checker and *sender are the first pair that disagrees, by checker and then by sender, where the checker checks the sender's value. Refusals
 * 1 to 4. */
uint16_t mavdrusek_rehearse(uint16_t p, uint16_t l, uint16_t e, uint16_t n, const uint16_t *matrix, size_t matrix_len, const uint16_t *gs,
                            size_t gs_len, const uint16_t *hs, size_t hs_len, uint16_t *fair, uint16_t *checker, uint16_t *sender);

/* The sum of the products of constants and one holder's shares, as many of the one as of the other and at most 64: its share of that combination of
 * columns. `rounds` has the rounds of the shares, as many again, and they must agree: *value is the sum and *round their round. With all three lengths 0
 * *value is 0 and *round is 0, whichever holder asks (no pointer may be null even then). Refusals 1, 3, 4, 19. */
uint16_t mavdrusek_combine(uint16_t p, const uint16_t *constants, size_t constants_len, const uint16_t *shares, size_t shares_len,
                           const uint16_t *rounds, size_t rounds_len, uint16_t *value, uint16_t *round);

/* A holder's share of a column at the next round: *value is `share` plus `zero` modulo p, and *next is `round` + 1. `share` is its share of that column at
 * `round`, `zero` its share of the same column of an accepted zero dealing, which has no round. The refreshed share opens with those of the same round to
 * what the old shares open to. Refusals 1, 4, 18. */
uint16_t mavdrusek_refresh(uint16_t p, uint16_t share, uint16_t round, uint16_t zero, uint16_t *value, uint16_t *next);

/* ---- Sets and openings */

/* Whether the set determines the secrets: *yes is 1 or 0. Refusals 1 to 5. */
uint16_t mavdrusek_determines(uint16_t p, uint16_t l, uint16_t e, uint16_t n, const uint16_t *matrix, size_t matrix_len, uint32_t set, uint16_t *yes);

/* Whether the set is called private, that is, every position below l has a sweeping vector, as mavdrusek_judge_set finds one: *yes is 1 or 0. On the
 * points matrix these are the sets with e members or fewer. On another matrix the members' rows decide: a holder with the row (1, 0, .., 0) reads
 * position 0, so that no set with it is private. A private set never determines the secrets; with l 1 every other set does. Refusals 1 to 5. */
uint16_t mavdrusek_private(uint16_t p, uint16_t l, uint16_t e, uint16_t n, const uint16_t *matrix, size_t matrix_len, uint32_t set, uint16_t *yes);

/* The judgement of a set at a position below l: *kind is 1, and `out` (32 entries) the reconstruction row, its entries by rising holder: the set
 * determines the position; or 2, and a sweeping vector of d entries: the set's shares fit every value at that position; or 0, neither. Zeros follow, so
 * that all 32 entries are written.
 * The row is the one with 0 at each member whose matrix row is a combination of those of lower members; there is only one. Which sweeping vector is
 * written is left open, and only that.
 * *steps is the number of row steps of the elimination that seeks the row, whatever the kind: Gauss-Jordan on the members' rows written as columns, by
 * rising holder. The pivot is the topmost unused row with an entry other than 0; each subtraction of a multiple of it from another row with an entry other
 * than 0 there is one row step, and scaling it is none. With k members they are at most min(k, d) * (d - 1), and on a points matrix just as many.
 * Refusals 1 to 5. */
uint16_t mavdrusek_judge_set(uint16_t p, uint16_t l, uint16_t e, uint16_t n, const uint16_t *matrix, size_t matrix_len, uint32_t set,
                             uint16_t position, uint16_t *out, size_t out_len, uint16_t *kind, uint16_t *steps);

/* Opens the set's shares of one column or combination, by rising holder, into l secrets. `shares` has as many entries as there are ones among all 32
 * bits of the set, those at or above n included: such a set gets 5 with that many shares, and 3 with any other number. `rounds` has the rounds of the
 * shares, as many and in the same order, and they must agree. Refusals 1 to 5, 19, 6, 7, in this order; refusal 6 writes the lowest position with no row
 * into *position although the call is refused; nothing else writes *position.
 * Where the honest holders among the openers determine the secrets by themselves, the others can only cause a refusal; where they do not, a false share
 * can open to false secrets. */
uint16_t mavdrusek_open(uint16_t p, uint16_t l, uint16_t e, uint16_t n, const uint16_t *matrix, size_t matrix_len, uint32_t set,
                        const uint16_t *shares, size_t shares_len, const uint16_t *rounds, size_t rounds_len, uint16_t *secrets, size_t secrets_len,
                        uint16_t *position);

/* ---- Corrections: numbers below zero as well, as shared values
 *
 * All four calls take p 65521 alone and refuse every other p by 1. Corrections that are held are dealt, kept and refreshed as other secrets are. Where the
 * honest holders among the openers determine the secrets by themselves, a combination of columns that opens gives the exact sum of constants times
 * corrections, position by position, wherever that sum is from -32760 to 32760. Of a sum beyond the range nothing is claimed: it cannot be told from the one
 * within that has the same remainder. */

/* Each correction's remainder into `residues`, as many entries: -1 is held as 65520. Refusals 22, 1, 3, in this order. */
uint16_t mavdrusek_hold_corrections(uint16_t p, const int32_t *corrections, size_t corrections_len, uint16_t *residues, size_t residues_len);

/* The corrections that these elements stand for into `corrections`, as many entries: an element up to 32760 for itself, one from 32761 on for 65521 less.
 * Refusals 1, 3, 4. */
uint16_t mavdrusek_read_corrections(uint16_t p, const uint16_t *residues, size_t residues_len, int32_t *corrections, size_t corrections_len);

/* As mavdrusek_combine, with constants from -32760 to 32760. Refusals 22, 1, 3, 4, 19, in this order. */
uint16_t mavdrusek_combine_signed(uint16_t p, const int32_t *constants, size_t constants_len, const uint16_t *shares, size_t shares_len,
                                  const uint16_t *rounds, size_t rounds_len, uint16_t *value, uint16_t *round);

/* As mavdrusek_open, with the l secrets read back into `corrections`, l entries. Refusals 1 to 5, 19, 6, 7, in this order; refusal 6 writes *position. */
uint16_t mavdrusek_open_signed(uint16_t p, uint16_t l, uint16_t e, uint16_t n, const uint16_t *matrix, size_t matrix_len, uint32_t set,
                               const uint16_t *shares, size_t shares_len, const uint16_t *rounds, size_t rounds_len, int32_t *corrections,
                               size_t corrections_len, uint16_t *position);

/* ---- Board keys: sixteen bytes in, sixteen bytes out
 *
 * The setup is p 257, l 4, e 3, n 16 with the points matrix, and no caller lends it: any 7 of the 16 holders open a key. Byte 4 * b + k of the key is
 * position k of column b. Parts and shares are those of that setup; every other call takes them with its numbers and the matrix that mavdrusek_points
 * gives. */

/* Every holder's part of a key, as mavdrusek_deal_all gives them: holder i's g and h at i * 7 of `gs` and `hs`, 112 entries each. `key` has 16 bytes, any
 * of 0 to 255; `random` has 33 elements, drawn evenly by the caller. Refusals 3, 4. */
uint16_t mavdrusek_deal_key(const uint8_t *key, size_t key_len, const uint16_t *random, size_t random_len, uint16_t *gs, size_t gs_len, uint16_t *hs,
                            size_t hs_len);

/* Opens the set's shares of the four columns into the 16 bytes of `key`, as four calls of mavdrusek_open would: `shares` has those of column 0 by rising
 * holder, then those of columns 1, 2 and 3. It has 4 times as many entries as there are ones among all 32 bits of the set, those at or above 16 included:
 * such a set gets 5 with that many shares, and 3 with any other number. `rounds` has the rounds of the shares, as many and in the same order; those of one
 * column must agree, and the four columns may stand at different rounds. Refusals 3, 4, 5, 19, 6, 7, 16, in this order; refusal 6 writes the lowest position
 * with no row into *position although the call is refused; nothing else writes *position. 16 is given only where all four columns open: 7 in any column
 * comes before a 256 in any other, and 19 in any column before both.
 * Where 7 of the openers are honest holders, the others can only cause a refusal; where fewer are, a false share can open to a false key. */
uint16_t mavdrusek_open_key(uint32_t set, const uint16_t *shares, size_t shares_len, const uint16_t *rounds, size_t rounds_len, uint8_t *key,
                            size_t key_len, uint16_t *position);

/* ---- Writing records, each into a buffer of just its length */

/* SU, 10 + 2 * n * d bytes. Refusals 1 to 4. */
uint16_t mavdrusek_write_setup(uint16_t p, uint16_t l, uint16_t e, uint16_t n, const uint16_t *matrix, size_t matrix_len, uint8_t *out,
                               size_t out_len);

/* DL, 6 + 4 * d bytes; g and h have d entries each. Refusals 1 to 5, 9. */
uint16_t mavdrusek_write_dealing(uint16_t p, uint16_t l, uint16_t e, uint16_t n, uint16_t dealing, uint16_t holder, const uint16_t *g, size_t g_len,
                                 const uint16_t *h, size_t h_len, uint8_t *out, size_t out_len);

/* PV, 10 bytes. Refusals 1 to 5, 9. */
uint16_t mavdrusek_write_pair_value(uint16_t p, uint16_t l, uint16_t e, uint16_t n, uint16_t dealing, uint16_t sender, uint16_t receiver,
                                    uint16_t value, uint8_t *out, size_t out_len);

/* DF, a holder's part of a second dealing with the map that ties it to the first, 6 + 4 * d + 2 * l * l bytes; g and h, those of the second dealing, have
 * d entries each, phi has l * l. Refusals 1 to 5, 9. */
uint16_t mavdrusek_write_mapped_dealing(uint16_t p, uint16_t l, uint16_t e, uint16_t n, uint16_t dealing, uint16_t holder, const uint16_t *g,
                                        size_t g_len, const uint16_t *h, size_t h_len, const uint16_t *phi, size_t phi_len, uint8_t *out,
                                        size_t out_len);

/* PF, a pair value of a second dealing, 10 bytes. Refusals 1 to 5, 9. */
uint16_t mavdrusek_write_mapped_pair_value(uint16_t p, uint16_t l, uint16_t e, uint16_t n, uint16_t dealing, uint16_t sender, uint16_t receiver,
                                           uint16_t value, uint8_t *out, size_t out_len);

/* DZ, a holder's part of a zero dealing, 6 + 2 * d + 2 * e bytes; g has d entries, h has e. Refusals 1 to 5, 9. */
uint16_t mavdrusek_write_zero_dealing(uint16_t p, uint16_t l, uint16_t e, uint16_t n, uint16_t dealing, uint16_t holder, const uint16_t *g,
                                      size_t g_len, const uint16_t *h, size_t h_len, uint8_t *out, size_t out_len);

/* VD, 8 bytes; verdict 1 accepts, 0 rejects. Refusals 1, 2, 3, 5, 9, 12. */
uint16_t mavdrusek_write_verdict(uint16_t p, uint16_t l, uint16_t e, uint16_t n, uint16_t dealing, uint16_t holder, uint16_t verdict, uint8_t *out,
                                 size_t out_len);

/* SH, 12 bytes; dealing 0 marks a combination, whose column is 0. `round` is the round of the share, any of 0 to 65535. Refusals 1 to 5. */
uint16_t mavdrusek_write_share(uint16_t p, uint16_t l, uint16_t e, uint16_t n, uint16_t dealing, uint16_t holder, uint16_t column, uint16_t value,
                               uint16_t round, uint8_t *out, size_t out_len);

/* ---- Reading records */

/* The four numbers of an SU whose matrix is whole and has elements below p. Tested in this order: the mark, 8; ten bytes, 3; the numbers, 1 and 2; the
 * whole length, 3; the elements, 4. */
uint16_t mavdrusek_read_setup_head(const uint8_t *part, size_t part_len, uint16_t *p, uint16_t *l, uint16_t *e, uint16_t *n);

/* The matrix of an SU into `matrix`, n * d entries. Refusals 1 to 4, 8. */
uint16_t mavdrusek_read_setup_matrix(const uint8_t *part, size_t part_len, uint16_t *matrix, size_t matrix_len);

/* A DL; g and h have d entries each. Refusals 1 to 5, 8, 9. */
uint16_t mavdrusek_read_dealing(uint16_t p, uint16_t l, uint16_t e, uint16_t n, const uint8_t *part, size_t part_len, uint16_t *g, size_t g_len,
                                uint16_t *h, size_t h_len, uint16_t *dealing, uint16_t *holder);

/* A PV. Refusals 1 to 5, 8, 9. */
uint16_t mavdrusek_read_pair_value(uint16_t p, uint16_t l, uint16_t e, uint16_t n, const uint8_t *part, size_t part_len, uint16_t *dealing,
                                   uint16_t *sender, uint16_t *receiver, uint16_t *value);

/* A DF; g and h have d entries each, phi has l * l. Refusals 1 to 5, 8, 9. */
uint16_t mavdrusek_read_mapped_dealing(uint16_t p, uint16_t l, uint16_t e, uint16_t n, const uint8_t *part, size_t part_len, uint16_t *g,
                                       size_t g_len, uint16_t *h, size_t h_len, uint16_t *phi, size_t phi_len, uint16_t *dealing,
                                       uint16_t *holder);

/* A PF. Refusals 1 to 5, 8, 9. */
uint16_t mavdrusek_read_mapped_pair_value(uint16_t p, uint16_t l, uint16_t e, uint16_t n, const uint8_t *part, size_t part_len, uint16_t *dealing,
                                          uint16_t *sender, uint16_t *receiver, uint16_t *value);

/* A DZ; g has d entries, h has e. Refusals 1 to 5, 8, 9. */
uint16_t mavdrusek_read_zero_dealing(uint16_t p, uint16_t l, uint16_t e, uint16_t n, const uint8_t *part, size_t part_len, uint16_t *g,
                                     size_t g_len, uint16_t *h, size_t h_len, uint16_t *dealing, uint16_t *holder);

/* A VD. Refusals 1, 2, 3, 5, 8, 9, 12. */
uint16_t mavdrusek_read_verdict(uint16_t p, uint16_t l, uint16_t e, uint16_t n, const uint8_t *part, size_t part_len, uint16_t *dealing,
                                uint16_t *holder, uint16_t *verdict);

/* An SH with its round; one that ends before it is cut short, 3. Refusals 1 to 5, 8. */
uint16_t mavdrusek_read_share(uint16_t p, uint16_t l, uint16_t e, uint16_t n, const uint8_t *part, size_t part_len, uint16_t *dealing,
                              uint16_t *holder, uint16_t *column, uint16_t *value, uint16_t *round);

/* Which of two SH of one share counts, that is, of the same dealing, holder and column: *which is 1 where the record at the start of `first` supersedes, or
 * 2 where the one at the start of `second` does. It is the first 12 bytes of that slice, in the caller's own buffer; bytes behind either record are not
 * looked at. The one with the higher round supersedes; with equal rounds and values it is the first. Refusals 1 to 5, 8, 21, 20: 1 and 2, then all that
 * mavdrusek_read_share refuses in `first`, then all that it refuses in `second`, then 21, then 20. *which keeps its contents where the call is refused. */
uint16_t mavdrusek_superseding(uint16_t p, uint16_t l, uint16_t e, uint16_t n, const uint8_t *first, size_t first_len, const uint8_t *second,
                               size_t second_len, uint16_t *which);

/* ---- The holder's file */

/* Reads a holder's file of at most 4,096 bytes: SU, DL, the n PV by rising sender, the n VD by rising holder; where the dealing is tied to a second one
 * by a map, its DF comes right behind the DL, and the n PF by rising sender come between the PV and the VD. A zero dealing's file has a DZ in place of the
 * DL, and neither DF nor PF. `contents` has 27 entries:
 *   0 to 3     p, l, e, n
 *   4, 5       the dealing number, the holder
 *   6, 7       the holder's judgement, with a DF that of both dealings, with a DZ that of a zero dealing: 1 accept, and 0; or 0 reject, and the sender
 *              that it names, or 65535 where only the check of the map fails
 *   8, 9       the outcome: 1 kept, and 0; or 0 aborted, and the holder that it names
 *   10 to 17   the l shares where kept, then zeros; zeros where aborted. No round stands in a file: a dealing's shares take the one that its holders
 *              agree on, and a zero dealing's have none
 *   18         the kind: 0 a dealing's file, 1 with a DF, 2 a zero dealing's
 *   19 to 26   with a DF the l shares of the second dealing where kept, then zeros; else zeros
 * A file that breaks the rules is refused by its number, 1 to 5, 8 to 13 or 17, and *byte is the byte where the faulty record starts, or the file's length
 * for 11 and 13; `contents` keeps its contents. Where the file is read, *byte keeps its contents. A file of more than 4,096 bytes and a `contents` of another
 * length are refused by 3 before the file is looked at, and then *byte keeps its contents too. */
uint16_t mavdrusek_read_file(const uint8_t *file, size_t file_len, uint16_t *contents, size_t contents_len, size_t *byte);

/* The text of such a file, as the holder program prints it, into `out`, 512 bytes; *count is how many they are, and the bytes behind them keep their
 * contents. Refused as by mavdrusek_read_file, an out_len other than 512 by 3 with no byte; then `out` and *count keep their contents. */
uint16_t mavdrusek_holder_file(const uint8_t *file, size_t file_len, uint8_t *out, size_t out_len, size_t *count, size_t *byte);

#ifdef __cplusplus
}
#endif

#endif
