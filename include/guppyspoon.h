/* The proved calls of Guppyspoon for C and C++, from target/staticlib/libexports.a, which `tools/build exports` writes (x86-64, Linux).
 *
 * Numbers are passed as themselves. A buffer is passed as a pointer to its first number and its length in numbers: bytes for a sheet and a
 * text, 32-bit words else. Every call
 *
 *   returns nothing: it writes its answer's words to its last buffer, `answer`: a number (0 accepted, else the reason of a refusal), its detail,
 *     and then what is named at the call. `answer` may have any length: as many words are written as it has room for, and none behind them;
 *   leaves every other buffer as it was if it refuses;
 *   keeps no state and allocates nothing, so that threads may call at the same time, each with buffers of its own;
 *   needs the stack that its GUPPYSPOON_.._STACK names. A call that runs out of stack dies: the proofs do not cover it.
 *
 * What the caller sees to: no buffer overlaps one that is written, no pointer is null, even with length 0, pointers to words are aligned as words,
 * and each buffer has the length that is passed with it. A wrong length is no fault of this kind: it is refused (reason 6).
 *
 * p is a prime: 17, 97 or 2013265921. 97 is retired: guppyspoon_prove, guppyspoon_prove_blinded, guppyspoon_deposit and guppyspoon_join take no new
 * sheets in it (reason 16), and every other call takes it as the other two, so that what is filed in it can be read, prepared, opened and checked.
 * An element is a number below p. n is the number of rows, a power of two, from 2 to the greatest for its prime.
 * l is the number of public inputs, 0 to n. A row below l must be a public row: its qL is 1 and its other selectors are 0, so that its gate says that
 * a is the public input. Selectors and labels stand column after column: qL of every row, then qR, and so on. The witness stands row by row: a, b, c of
 * row 0, then of row 1, and so on, so that the number of position column * n + row is at place 3 * row + column. (Before, it stood column after
 * column: guppyspoon_to_rows and guppyspoon_to_columns take it from one layout to the other.) A polynomial is its coefficients, lowest first.
 * A transcript is unblinded, as guppyspoon_prove lays it, or blinded, as guppyspoon_prove_blinded lays it from nine further numbers, and then longer.
 * The calls that are lent a transcript take either, and its length alone decides which it is: where it is the longer, so are the opening and the
 * scratch, and "or" parts the two lengths below. A transcript of neither length is refused (reason 6, its own place).
 * "Buffers" below are in the order in which reason 6 counts them, from 1; `answer` is not counted. Those marked "written" may hold anything
 * before the call. `scratch` is the call's working area and holds zeros after an accepted call.
 */
#ifndef GUPPYSPOON_H
#define GUPPYSPOON_H

#include <stddef.h>
#include <stdint.h>

#ifdef __cplusplus
extern "C" {
#endif

/* The greatest number of rows of each prime, and on a sheet. */
#define GUPPYSPOON_MOST_ROWS_17 4
#define GUPPYSPOON_MOST_ROWS_97 32
#define GUPPYSPOON_MOST_ROWS_2013265921 1024
#define GUPPYSPOON_MOST_ROWS_SHEET 256

/* A word that is no element of any field, and that no call takes as one: what stands in the place of an inverse that there is none of. */
#define GUPPYSPOON_NO_ELEMENT UINT32_C(4294967295)

/* The words of the buffers for n rows. */
#define GUPPYSPOON_SELECTORS_LENGTH(n) (5 * (size_t)(n))      /* qL, qR, qO, qM, qC */
#define GUPPYSPOON_LABELS_LENGTH(n) (3 * (size_t)(n))         /* of the columns a, b, c */
#define GUPPYSPOON_POSITIONS_LENGTH(n) (3 * (size_t)(n))      /* position k = column * n + row */
#define GUPPYSPOON_WITNESS_LENGTH(n) (3 * (size_t)(n))        /* a, b, c of each row */
#define GUPPYSPOON_PREPARED_LENGTH(n) (8 * (size_t)(n))       /* qL, qR, qO, qM, qC, then the permuted tags of a, b, c; polynomials */
#define GUPPYSPOON_TRANSCRIPT_LENGTH(n) (7 * (size_t)(n) - 3) /* a, b, c, z of n coefficients each, then t of 3n - 3 */
#define GUPPYSPOON_OPENING_LENGTH(n) (3 * (size_t)(n) - 4)    /* one polynomial; n is 2 or more */
#define GUPPYSPOON_SCRATCH_LENGTH(n) (16 * (size_t)(n))

/* The same where the transcript is blinded. */
#define GUPPYSPOON_BLINDED_TRANSCRIPT_LENGTH(n) (7 * (size_t)(n) + 15) /* a, b, c of n + 2 coefficients each, z of n + 3, then t of 3n + 6 */
#define GUPPYSPOON_BLINDED_OPENING_LENGTH(n) (3 * (size_t)(n) + 5)
#define GUPPYSPOON_BLINDED_SCRATCH_LENGTH(n) (16 * (size_t)(n) + 64)

/* The numbers that a transcript is blinded with: b1, b2 for a, b3, b4 for b, b5, b6 for c, and b7, b8, b9 for z. */
#define GUPPYSPOON_BLINDERS_LENGTH 9

/* The most numbers of a list of polynomials. The polynomials are numbered 0 to 7 (prepared, in its order), 8 to 10 (a, b, c), 11 (z), 12 (t). */
#define GUPPYSPOON_LIST_MOST_LENGTH 13

/* The challenges of each call that has them. */
#define GUPPYSPOON_CHECK_ROWS_CHALLENGES 2    /* beta, gamma */
#define GUPPYSPOON_PROVE_CHALLENGES 3         /* beta, gamma, alpha */
#define GUPPYSPOON_PROVE_BLINDED_CHALLENGES 3 /* the same */
#define GUPPYSPOON_CHECK_POINT_CHALLENGES 4   /* beta, gamma, alpha, zeta */
#define GUPPYSPOON_OPEN_CHALLENGES 2          /* the point, the mixing number m */
#define GUPPYSPOON_CHECK_OPENING_CHALLENGES 2 /* the same */
#define GUPPYSPOON_LOST_GAMMAS_CHALLENGES 1   /* beta */

/* Sheets: the most bytes of one, the bytes of a deposit's text and of the buffer for a joined sheet, and the words of the buffers that a sheet is
 * read into. */
#define GUPPYSPOON_SHEET_MOST_BYTES 65536
#define GUPPYSPOON_TEXT_LENGTH 20480
#define GUPPYSPOON_JOINED_LENGTH 65536
#define GUPPYSPOON_SHEET_SELECTORS_LENGTH 1280
#define GUPPYSPOON_SHEET_LABELS_LENGTH 768
#define GUPPYSPOON_SHEET_WITNESS_LENGTH 768
#define GUPPYSPOON_SHEET_PUBLICS_LENGTH 256
#define GUPPYSPOON_SHEET_CHALLENGES_LENGTH 13 /* beta, gamma, alpha, zeta, then b1 to b9 */

/* The words of each call's answer. */
#define GUPPYSPOON_INVERSE_WORDS 4
#define GUPPYSPOON_EVALUATE_WORDS 2
#define GUPPYSPOON_INTERPOLATE_WORDS 2
#define GUPPYSPOON_PERMUTATION_WORDS 2
#define GUPPYSPOON_PREPARE_WORDS 2
#define GUPPYSPOON_CHECK_ROWS_WORDS 4
#define GUPPYSPOON_CHECK_POINT_WORDS 3
#define GUPPYSPOON_OPEN_WORDS 2
#define GUPPYSPOON_CHECK_OPENING_WORDS 3
#define GUPPYSPOON_PROVE_WORDS 2
#define GUPPYSPOON_PROVE_BLINDED_WORDS 2
#define GUPPYSPOON_LOST_GAMMAS_WORDS 3
#define GUPPYSPOON_READ_WORDS 6
#define GUPPYSPOON_TO_ROWS_WORDS 2
#define GUPPYSPOON_TO_COLUMNS_WORDS 2
#define GUPPYSPOON_DEPOSIT_WORDS 3
#define GUPPYSPOON_JOIN_WORDS 3

/* The bytes of stack that are enough for each call, whatever is lent to it: at least 4,096 more than bench/ measures at the largest size, since the
 * first call of a program may take some 3,200 more, while the loader looks up memcpy. What a signal handler takes is not in them. */
#define GUPPYSPOON_INVERSE_STACK 8192
#define GUPPYSPOON_EVALUATE_STACK 20480
#define GUPPYSPOON_INTERPOLATE_STACK 20480
#define GUPPYSPOON_PERMUTATION_STACK 20480
#define GUPPYSPOON_PREPARE_STACK 32768
#define GUPPYSPOON_CHECK_ROWS_STACK 81920
#define GUPPYSPOON_CHECK_POINT_STACK 24576
#define GUPPYSPOON_OPEN_STACK 8192
#define GUPPYSPOON_CHECK_OPENING_STACK 8192
#define GUPPYSPOON_PROVE_STACK 245760
#define GUPPYSPOON_PROVE_BLINDED_STACK 245760
#define GUPPYSPOON_LOST_GAMMAS_STACK 61440
#define GUPPYSPOON_READ_STACK 32768
#define GUPPYSPOON_TO_ROWS_STACK 8192
#define GUPPYSPOON_TO_COLUMNS_STACK 8192
#define GUPPYSPOON_DEPOSIT_STACK 294912
#define GUPPYSPOON_JOIN_STACK 65536

/* Word 0 of an answer: accepted, or the first of the call's reasons, in the order in which they are named at the call, that applies. Word 1 is the
 * detail, 0 unless named here. */
enum guppyspoon_reason {
    GUPPYSPOON_ACCEPTED = 0,
    GUPPYSPOON_BAD_START = 1,         /* the sheet is too long, or its line 1 is missing or out of form */
    GUPPYSPOON_BAD_PRIME = 2,         /* p is none of the three primes */
    GUPPYSPOON_BAD_ROWS = 3,          /* n is no power of two, or outside its prime's bounds (of every prime, where no p is passed), or above 256 on a sheet */
    GUPPYSPOON_BAD_PUBLICS = 4,       /* l exceeds n */
    GUPPYSPOON_BAD_LINE = 5,          /* a later line of the sheet is missing, extra or out of form; detail: the first such line, from 1 */
    GUPPYSPOON_BAD_LENGTH = 6,        /* a buffer has another length than is named at the call; detail: its place among the buffers, from 1 */
    GUPPYSPOON_BAD_ELEMENT = 7,       /* an element is p or more; detail: the place of the first, from 0, over the elements named at the call */
    GUPPYSPOON_BAD_LABEL = 8,         /* a label is 3n or more; detail: the lowest such position */
    GUPPYSPOON_GATE_FAILS = 9,        /* a gate fails; detail: the lowest row */
    GUPPYSPOON_COPY_FAILS = 10,       /* a witness value differs from that of a lower position with its label; detail: the lowest such position */
    GUPPYSPOON_ZERO_DENOMINATOR = 11, /* a factor of a denominator of z is 0; detail: the lowest row */
    GUPPYSPOON_BAD_LIST = 12,         /* a list of polynomials is empty or longer than 13 */
    GUPPYSPOON_BAD_NUMBER = 13,       /* the number of a polynomial is above 12; detail: the first such place in the list, from 0 */
    GUPPYSPOON_BAD_PUBLIC_ROW = 14,   /* a row below l is no public row; detail: the lowest such row */
    GUPPYSPOON_UNLIKE_SHEETS = 15,    /* two sheets differ in p or in n */
    GUPPYSPOON_RETIRED_PRIME = 16     /* p is 97, and the call takes new sheets */
};

/* Word 2 of the answer of guppyspoon_check_rows. */
enum guppyspoon_row_verdict {
    GUPPYSPOON_ROWS_NONE = 0,  /* the call was refused */
    GUPPYSPOON_ROWS_PASS = 1,  /* every identity holds at every row */
    GUPPYSPOON_ROWS_GATE = 2,  /* the gate of a row fails */
    GUPPYSPOON_ROWS_START = 3, /* z is not 1 at row 0 */
    GUPPYSPOON_ROWS_STEP = 4   /* the step of z from a row to the next fails; row n - 1 leads to row 0 */
};

/* Word 2 of the answers of guppyspoon_check_point and guppyspoon_check_opening. */
enum guppyspoon_point_verdict {
    GUPPYSPOON_POINT_NONE = 0, /* the call was refused */
    GUPPYSPOON_POINT_ACCEPT = 1,
    GUPPYSPOON_POINT_REJECT = 2
};

/* The inverse of x modulo p; 0 has none.
 *
 * Buffers: none.
 * Reasons: 2, 7 (x is place 0).
 * Answer: number, detail, 1 if there is an inverse and 0 if there is none (x is 0, or the call was refused), the inverse (GUPPYSPOON_NO_ELEMENT if
 * there is none).
 */
void guppyspoon_inverse(uint32_t p, uint32_t x, uint32_t *answer, size_t answer_length);

/* The values of a polynomial at the points of the n rows.
 *
 * Buffers: 1 coefficients, n; 2 values, n, written; 3 scratch, 16n, written.
 * Reasons: 2, 3, 6, 7 (coefficients).
 * Answer: number, detail.
 */
void guppyspoon_evaluate(uint32_t p, uint32_t n, const uint32_t *coefficients, size_t coefficients_length, uint32_t *values, size_t values_length,
                         uint32_t *scratch, size_t scratch_length, uint32_t *answer, size_t answer_length);

/* The one polynomial of n coefficients with the given values at the points of the n rows.
 *
 * Buffers: 1 values, n; 2 coefficients, n, written; 3 scratch, 16n, written.
 * Reasons: 2, 3, 6, 7 (values).
 * Answer: number, detail.
 */
void guppyspoon_interpolate(uint32_t p, uint32_t n, const uint32_t *values, size_t values_length, uint32_t *coefficients,
                            size_t coefficients_length, uint32_t *scratch, size_t scratch_length, uint32_t *answer, size_t answer_length);

/* The copy permutation: from each position the next higher one with its label, from the highest the lowest.
 *
 * Buffers: 1 labels, 3n; 2 positions, 3n, written.
 * Reasons: 2, 3, 6, 8.
 * Answer: number, detail.
 */
void guppyspoon_permutation(uint32_t p, uint32_t n, const uint32_t *labels, size_t labels_length, uint32_t *positions, size_t positions_length,
                            uint32_t *answer, size_t answer_length);

/* The prepared circuit: eight polynomials of n coefficients, end to end.
 *
 * Buffers: 1 selectors, 5n; 2 labels, 3n; 3 written, 8n, written; 4 scratch, 16n, written.
 * Reasons: 2, 3, 4, 6, 7 (selectors), 8, 14.
 * Answer: number, detail.
 */
void guppyspoon_prepare(uint32_t p, uint32_t n, uint32_t l, const uint32_t *selectors, size_t selectors_length, const uint32_t *labels,
                        size_t labels_length, uint32_t *written, size_t written_length, uint32_t *scratch, size_t scratch_length, uint32_t *answer,
                        size_t answer_length);

/* The row check: rows upward, in each the gate, then z = 1 (row 0 only), then the step to the next row.
 *
 * Buffers: 1 selectors, 5n; 2 labels, 3n; 3 witness, 3n; 4 publics, l; 5 z (its values at the rows), n; 6 challenges (beta, gamma), 2.
 * Reasons: 2, 3, 4, 6, 7 (selectors, witness, publics, z, challenges end to end), 8, 14.
 * Answer: number, detail, the verdict (enum guppyspoon_row_verdict), the row that fails first (0 where none does).
 */
void guppyspoon_check_rows(uint32_t p, uint32_t n, uint32_t l, const uint32_t *selectors, size_t selectors_length, const uint32_t *labels,
                           size_t labels_length, const uint32_t *witness, size_t witness_length, const uint32_t *publics, size_t publics_length,
                           const uint32_t *z, size_t z_length, const uint32_t *challenges, size_t challenges_length, uint32_t *answer,
                           size_t answer_length);

/* The point check: whether F(zeta) = t(zeta) * (zeta^n - 1) for a prepared circuit and a transcript, unblinded or blinded.
 *
 * Buffers: 1 publics, l; 2 prepared, 8n; 3 transcript, 7n - 3 or 7n + 15; 4 challenges (beta, gamma, alpha, zeta), 4; 5 scratch, 16n or 16n + 64,
 *   written.
 * Reasons: 2, 3, 4, 6, 7 (publics, prepared, transcript, challenges end to end).
 * Answer: number, detail, the verdict (enum guppyspoon_point_verdict).
 */
void guppyspoon_check_point(uint32_t p, uint32_t n, uint32_t l, const uint32_t *publics, size_t publics_length, const uint32_t *prepared,
                            size_t prepared_length, const uint32_t *transcript, size_t transcript_length, const uint32_t *challenges,
                            size_t challenges_length, uint32_t *scratch, size_t scratch_length, uint32_t *answer, size_t answer_length);

/* Opens polynomials at a point: for a list of polynomial numbers (repeats are allowed), f_i being the polynomial whose number stands at place i,
 * writes the evaluations s_i = f_i(point), and the opening polynomial: the sum over i from 0 of m^i * (f_i - s_i), over X - point. m^0 is 1, also
 * for m = 0.
 *
 * Buffers: 1 prepared, 8n; 2 transcript, 7n - 3 or 7n + 15; 3 list, any number (none, or above 13, gives reason 12); 4 evaluations, as many as the
 *   list has, written; 5 opening, 3n - 4 or 3n + 5, written; 6 challenges (the point, m), 2; 7 scratch, 16n or 16n + 64, written.
 * Reasons: 2, 3, 6, 12, 13, 7 (prepared, transcript, challenges end to end).
 * Answer: number, detail.
 */
void guppyspoon_open(uint32_t p, uint32_t n, const uint32_t *prepared, size_t prepared_length, const uint32_t *transcript,
                     size_t transcript_length, const uint32_t *list, size_t list_length, uint32_t *evaluations, size_t evaluations_length,
                     uint32_t *opening, size_t opening_length, const uint32_t *challenges, size_t challenges_length, uint32_t *scratch,
                     size_t scratch_length, uint32_t *answer, size_t answer_length);

/* Checks such an opening: whether the sum over i of m^i * (f_i - s_i), with the lent evaluations s_i, equals opening * (X - point) in every
 * coefficient.
 *
 * Buffers: 1 prepared, 8n; 2 transcript, 7n - 3 or 7n + 15; 3 list, any number (none, or above 13, gives reason 12); 4 evaluations, as many as the
 *   list has; 5 opening, 3n - 4 or 3n + 5; 6 challenges (the point, m), 2; 7 scratch, 16n or 16n + 64, written.
 * Reasons: 2, 3, 6, 12, 13, 7 (prepared, transcript, evaluations, opening, challenges end to end).
 * Answer: number, detail, the verdict (enum guppyspoon_point_verdict).
 */
void guppyspoon_check_opening(uint32_t p, uint32_t n, const uint32_t *prepared, size_t prepared_length, const uint32_t *transcript,
                              size_t transcript_length, const uint32_t *list, size_t list_length, const uint32_t *evaluations,
                              size_t evaluations_length, const uint32_t *opening, size_t opening_length, const uint32_t *challenges,
                              size_t challenges_length, uint32_t *scratch, size_t scratch_length, uint32_t *answer, size_t answer_length);

/* The prover: the transcript a, b, c, z, t of a witness that satisfies its circuit.
 *
 * Buffers: 1 selectors, 5n; 2 labels, 3n; 3 witness, 3n; 4 publics, l; 5 transcript, 7n - 3, written; 6 challenges (beta, gamma, alpha), 3;
 *   7 scratch, 16n, written.
 * Reasons: 2, 16, 3, 4, 6, 7 (selectors, witness, publics, challenges end to end), 8, 14, 9, 10, 11.
 * Answer: number, detail.
 */
void guppyspoon_prove(uint32_t p, uint32_t n, uint32_t l, const uint32_t *selectors, size_t selectors_length, const uint32_t *labels,
                      size_t labels_length, const uint32_t *witness, size_t witness_length, const uint32_t *publics, size_t publics_length,
                      uint32_t *transcript, size_t transcript_length, const uint32_t *challenges, size_t challenges_length, uint32_t *scratch,
                      size_t scratch_length, uint32_t *answer, size_t answer_length);

/* The prover, blinding: the transcript a, b, c, z, t of a witness that satisfies its circuit, where (b1 X + b2)(X^n - 1) is added to a,
 * (b3 X + b4)(X^n - 1) to b, (b5 X + b6)(X^n - 1) to c and (b7 X^2 + b8 X + b9)(X^n - 1) to z, and t is that of these. It is accepted as the
 * unblinded one is, whichever the nine; with nine zeros each polynomial has the coefficients of the unblinded one, and zeros behind.
 *
 * Buffers: 1 selectors, 5n; 2 labels, 3n; 3 witness, 3n; 4 publics, l; 5 transcript, 7n + 15, written; 6 challenges (beta, gamma, alpha), 3;
 *   7 blinders (b1 to b9), 9; 8 scratch, 16n + 64, written.
 * Reasons: 2, 16, 3, 4, 6, 7 (selectors, witness, publics, challenges, blinders end to end), 8, 14, 9, 10, 11.
 * Answer: number, detail.
 */
void guppyspoon_prove_blinded(uint32_t p, uint32_t n, uint32_t l, const uint32_t *selectors, size_t selectors_length, const uint32_t *labels,
                              size_t labels_length, const uint32_t *witness, size_t witness_length, const uint32_t *publics, size_t publics_length,
                              uint32_t *transcript, size_t transcript_length, const uint32_t *challenges, size_t challenges_length,
                              const uint32_t *blinders, size_t blinders_length, uint32_t *scratch, size_t scratch_length, uint32_t *answer,
                              size_t answer_length);

/* The gammas that are lost with a beta: how many of the p gammas guppyspoon_prove and guppyspoon_prove_blinded refuse with reason 11, for a witness
 * that satisfies its circuit, over 17 and 2013265921; the others they take. Over 97, how many of them meet the condition of reason 11. Counted are
 * the different numbers among witness + beta * tag, modulo p, over the 3n positions. The tag of a position is 1, g or g * g, for the columns a, b, c,
 * times the point of its row; g is 3 for 17, 5 for 97, 31 for 2013265921. Whether the witness satisfies a circuit is not looked at.
 *
 * Buffers: 1 witness, 3n; 2 challenges (beta), 1.
 * Reasons: 2, 3, 6, 7 (witness, challenges end to end).
 * Answer: number, detail, the count (0 if refused).
 */
void guppyspoon_lost_gammas(uint32_t p, uint32_t n, const uint32_t *witness, size_t witness_length, const uint32_t *challenges,
                            size_t challenges_length, uint32_t *answer, size_t answer_length);

/* The numbers of a sheet, at the start of buffers with room for 256 rows, zeros behind. The sheet may end with a line of b1 to b9: what stands behind
 * the line of the challenges is that line.
 *
 * Buffers: 1 sheet, any number of bytes (above 65,536 gives reason 1); 2 selectors, 1280, written; 3 labels, 768, written;
 *   4 witness, 768, written; 5 publics, 256, written; 6 challenges (beta, gamma, alpha, zeta, then b1 to b9, zeros where their line is absent), 13,
 *   written.
 * Reasons: 1, 2, 3, 4, 5, 6, 7 (selectors, witness, publics, challenges, blinders where their line is there, end to end, as they are lent for the
 *   sheet's n and l), 8, 14.
 * Answer: number, detail, p, n, l, 1 if the line of b1 to b9 is there and 0 if it is absent (all four 0 if refused).
 */
void guppyspoon_read(const uint8_t *sheet, size_t sheet_length, uint32_t *selectors, size_t selectors_length, uint32_t *labels,
                     size_t labels_length, uint32_t *witness, size_t witness_length, uint32_t *publics, size_t publics_length,
                     uint32_t *challenges, size_t challenges_length, uint32_t *answer, size_t answer_length);

/* A witness that stands column after column (a of every row, then b, then c), row by row. The numbers may be any.
 *
 * Buffers: 1 columns, 3n; 2 rows, 3n, written.
 * Reasons: 3 (n is no power of two from 2 to 1,024), 6.
 * Answer: number, detail.
 */
void guppyspoon_to_rows(uint32_t n, const uint32_t *columns, size_t columns_length, uint32_t *rows, size_t rows_length, uint32_t *answer,
                        size_t answer_length);

/* A witness that stands row by row, column after column: the way back.
 *
 * Buffers: 1 rows, 3n; 2 columns, 3n, written.
 * Reasons: 3 (n is no power of two from 2 to 1,024), 6.
 * Answer: number, detail.
 */
void guppyspoon_to_columns(uint32_t n, const uint32_t *rows, size_t rows_length, uint32_t *columns, size_t columns_length, uint32_t *answer,
                           size_t answer_length);

/* The text that the program `deposit` prints of a sheet, zeros behind: the transcript is blinded where the sheet has the line of b1 to b9. A sheet that
 * is refused has a text too (`refused,`, number, detail; the reasons are 1, 2, 16, 3, 4, 5, 7, 8, 14, 9, 10, 11): the call is accepted.
 *
 * Buffers: 1 sheet, any number of bytes; 2 text, 20,480 bytes, written.
 * Reasons: 6 (detail 2).
 * Answer: number, detail, the bytes of the text (0 if refused).
 */
void guppyspoon_deposit(const uint8_t *sheet, size_t sheet_length, uint8_t *text, size_t text_length, uint32_t *answer, size_t answer_length);

/* Two sheets of the same p and n joined to one of 2n rows, zeros behind: the public rows of the first, those of the second, the other rows of the
 * first, those of the second, each with its witness; l is the sum. The labels of the second are raised by 3n. The public inputs are those of the
 * first, then those of the second; the challenges are those of the first. A line of b1 to b9 is looked at as the rest of its sheet, and dropped:
 * the joined sheet has none. Whether either witness satisfies its circuit is not looked at.
 *
 * Buffers: 1 one, the first sheet, any number of bytes (above 65,536 gives reason 1); 2 two, the second, the same; 3 joined, 65,536 bytes, written.
 *   `one` and `two` may be the same sheet.
 * Reasons: of the first sheet 1, 2, 16, 3, 4, 5, 6 (detail 3), 7, 8, 14; then of the second 1, 2, 16, 3, 4, 5, 7, 8, 14, each but 16 as at
 *   guppyspoon_read; then 15; then 3 (2n is above the greatest for p, or above 256).
 * Answer: number, detail, the bytes of the joined sheet (0 if refused).
 */
void guppyspoon_join(const uint8_t *one, size_t one_length, const uint8_t *two, size_t two_length, uint8_t *joined, size_t joined_length,
                     uint32_t *answer, size_t answer_length);

#ifdef __cplusplus
}
#endif

#endif
