/* Makes every call of guppyspoon.h on the numbers of examples/worked.sheet, in buffers of the header's own lengths, and looks at the words of every
 * answer. Each named reason and verdict comes once, and each greatest size is tried. bench compiles and runs it; the exit status is 1 if a word
 * is another. */
#include <guppyspoon.h>
#include <stdio.h>
#include <string.h>

enum { P = 17, N = 2, L = 0, LARGEST = 2013265921, ROOM = 8, UNTOUCHED = 77 };

/* A buffer as it is lent, and words as they are looked for. */
#define LENT(buffer) buffer, sizeof buffer / sizeof *buffer
#define EXPECT(name, count, ...) expect(name, (const uint32_t[]){__VA_ARGS__}, count)
#define SHEET(text) (const uint8_t *)text, strlen(text)

static const uint32_t selectors[GUPPYSPOON_SELECTORS_LENGTH(N)] = {0, 1, 0, 1, 16, 16, 1, 0, 0, 0};
static const uint32_t labels[GUPPYSPOON_LABELS_LENGTH(N)] = {0, 2, 1, 2, 2, 3};
static const uint32_t witness[GUPPYSPOON_WITNESS_LENGTH(N)] = {2, 3, 6, 6, 6, 12};
static const uint32_t by_columns[GUPPYSPOON_WITNESS_LENGTH(N)] = {2, 6, 3, 6, 6, 12};
static const uint32_t publics[1] = {0};
static const uint32_t z[N] = {1, 14};
static const uint32_t pair[GUPPYSPOON_CHECK_ROWS_CHALLENGES] = {1, 1};
static const uint32_t three[GUPPYSPOON_PROVE_CHALLENGES] = {1, 1, 2};
static const uint32_t four[GUPPYSPOON_CHECK_POINT_CHALLENGES] = {1, 1, 2, 2};
static const uint32_t beta[GUPPYSPOON_LOST_GAMMAS_CHALLENGES] = {1};
static const uint32_t proof[GUPPYSPOON_TRANSCRIPT_LENGTH(N)] = {4, 15, 13, 7, 9, 14, 16, 2, 9, 12, 15};
static const uint32_t list[] = {8, 9, 10, 11, 12};
static const uint32_t point[GUPPYSPOON_OPEN_CHALLENGES] = {2, 3};
static const uint32_t evaluated[] = {0, 10, 3, 3, 8};
static const uint32_t opened[GUPPYSPOON_OPENING_LENGTH(N)] = {14, 8};
static const uint32_t nine[GUPPYSPOON_BLINDERS_LENGTH] = {1, 2, 3, 4, 5, 6, 7, 8, 9};
static const uint32_t blinded_proof[GUPPYSPOON_BLINDED_TRANSCRIPT_LENGTH(N)] = {2, 14, 2, 1, 9,  4, 4, 3,  3,  9,  6, 5, 7,  11, 2,
                                                                                8, 7,  16, 10, 5, 0, 13, 15, 12, 1, 1, 12, 4, 0};
static const uint32_t blinded_evaluated[] = {12, 6, 0, 9, 15};
static const uint32_t blinded_opened[GUPPYSPOON_BLINDED_OPENING_LENGTH(N)] = {16, 13, 15, 8, 12, 2, 8, 6, 5, 1, 0};
static const char sheet[] = "17,2,0\n0,0,16,1,0,0,1,2\n1,1,16,0,0,2,2,3\n2,3,6\n6,6,12\n1,1,2,2\n";
static const char blinded_sheet[] = "17,2,0\n0,0,16,1,0,0,1,2\n1,1,16,0,0,2,2,3\n2,3,6\n6,6,12\n1,1,2,2\n1,2,3,4,5,6,7,8,9\n";
static const char public_sheet[] = "17,2,1\n1,0,0,0,0,0,1,2\n1,1,16,0,0,2,2,3\n2,3,6\n6,6,12\n2\n3,4,5,6\n";
static const char both[] = "17,4,1\n1,0,0,0,0,6,7,8\n0,0,16,1,0,0,1,2\n1,1,16,0,0,2,2,3\n1,1,16,0,0,8,8,9\n"
                           "2,3,6\n2,3,6\n6,6,12\n6,6,12\n2\n1,1,2,2\n";
static const char printed[] = "a,4,15\nb,13,7\nc,9,14\nz,16,2\nt,9,12,15\naccept\n";
static const char blinded_printed[] = "a,2,14,2,1\nb,9,4,4,3\nc,3,9,6,5\nz,7,11,2,8,7\nt,16,10,5,0,13,15,12,1,1,12,4,0\naccept\n";

static uint32_t values[N];
static uint32_t coefficients[N];
static uint32_t positions[GUPPYSPOON_POSITIONS_LENGTH(N)];
static uint32_t rows[GUPPYSPOON_WITNESS_LENGTH(N)];
static uint32_t columns[GUPPYSPOON_WITNESS_LENGTH(N)];
static uint32_t prepared[GUPPYSPOON_PREPARED_LENGTH(N)];
static uint32_t transcript[GUPPYSPOON_TRANSCRIPT_LENGTH(N)];
static uint32_t evaluations[GUPPYSPOON_LIST_MOST_LENGTH + 1];
static uint32_t opening[GUPPYSPOON_OPENING_LENGTH(N)];
static uint32_t scratch[GUPPYSPOON_SCRATCH_LENGTH(N)];
static uint32_t blinded_transcript[GUPPYSPOON_BLINDED_TRANSCRIPT_LENGTH(N)];
static uint32_t blinded_opening[GUPPYSPOON_BLINDED_OPENING_LENGTH(N)];
static uint32_t blinded_scratch[GUPPYSPOON_BLINDED_SCRATCH_LENGTH(N)];
static uint32_t sheet_selectors[GUPPYSPOON_SHEET_SELECTORS_LENGTH];
static uint32_t sheet_labels[GUPPYSPOON_SHEET_LABELS_LENGTH];
static uint32_t sheet_witness[GUPPYSPOON_SHEET_WITNESS_LENGTH];
static uint32_t sheet_publics[GUPPYSPOON_SHEET_PUBLICS_LENGTH];
static uint32_t sheet_challenges[GUPPYSPOON_SHEET_CHALLENGES_LENGTH];
static uint8_t text[GUPPYSPOON_TEXT_LENGTH];
static uint8_t joined[GUPPYSPOON_JOINED_LENGTH];
static uint32_t answer[ROOM];
static int differences = 0;

static void expect_that(const char *name, int holds)
{
    if (!holds) {
        printf("DIFFERENCE every_call.c, %s\n", name);
        differences++;
    }
}

/* The answer is these words, and what stands behind them is untouched. */
static void expect(const char *name, const uint32_t *words, size_t count)
{
    int same = 1;
    for (size_t i = 0; i < ROOM; i++) {
        same = same && answer[i] == (i < count ? words[i] : UNTOUCHED);
        answer[i] = UNTOUCHED;
    }
    expect_that(name, same);
}

static void prove(const uint32_t *contents, const uint32_t *challenges)
{
    guppyspoon_prove(P, N, L, LENT(selectors), LENT(labels), contents, GUPPYSPOON_WITNESS_LENGTH(N), publics, L, LENT(transcript), challenges,
                     GUPPYSPOON_PROVE_CHALLENGES, LENT(scratch), LENT(answer));
}

static void check_rows(const uint32_t *contents, const uint32_t *column)
{
    guppyspoon_check_rows(P, N, L, LENT(selectors), LENT(labels), contents, GUPPYSPOON_WITNESS_LENGTH(N), publics, L, column, N, LENT(pair),
                          LENT(answer));
}

static void check_point(uint32_t l, const uint32_t *lent)
{
    guppyspoon_check_point(P, N, l, publics, L, LENT(prepared), lent, GUPPYSPOON_TRANSCRIPT_LENGTH(N), LENT(four), LENT(scratch), LENT(answer));
}

static void open(const uint32_t *numbers, size_t length)
{
    guppyspoon_open(P, N, LENT(prepared), LENT(proof), numbers, length, evaluations, length, LENT(opening), LENT(point), LENT(scratch),
                    LENT(answer));
}

static void check_opening(const uint32_t *claimed)
{
    guppyspoon_check_opening(P, N, LENT(prepared), LENT(proof), LENT(list), claimed, sizeof list / sizeof *list, LENT(opened), point,
                             GUPPYSPOON_CHECK_OPENING_CHALLENGES, LENT(scratch), LENT(answer));
}

static void read(const uint8_t *bytes, size_t length)
{
    guppyspoon_read(bytes, length, LENT(sheet_selectors), LENT(sheet_labels), LENT(sheet_witness), LENT(sheet_publics), LENT(sheet_challenges),
                    LENT(answer));
}

static void join(const char *one, const char *two, size_t length)
{
    guppyspoon_join(SHEET(one), SHEET(two), joined, length, LENT(answer));
}

static void prove_blinded(const uint32_t *blinders)
{
    guppyspoon_prove_blinded(P, N, L, LENT(selectors), LENT(labels), LENT(witness), publics, L, LENT(blinded_transcript), three,
                             GUPPYSPOON_PROVE_BLINDED_CHALLENGES, blinders, GUPPYSPOON_BLINDERS_LENGTH, LENT(blinded_scratch), LENT(answer));
}

/* A transcript of some length, with a scratch of some length. */
static void check_length(size_t transcript_length, size_t scratch_length)
{
    guppyspoon_check_point(P, N, L, publics, L, LENT(prepared), blinded_proof, transcript_length, LENT(four), blinded_scratch, scratch_length,
                           LENT(answer));
}

/* Behind the joined sheet there are zeros, and a refusal leaves all of it. */
static void every_join(void)
{
    memset(joined, UNTOUCHED, sizeof joined);
    join(sheet, public_sheet, sizeof joined);
    EXPECT("join", GUPPYSPOON_JOIN_WORDS, GUPPYSPOON_ACCEPTED, 0, sizeof both - 1);
    expect_that("the joined sheet", memcmp(joined, both, sizeof both) == 0);
    for (size_t i = sizeof both; i < sizeof joined; i++)
        expect_that("zeros behind the joined sheet", joined[i] == 0);
    join(sheet, sheet, GUPPYSPOON_JOINED_LENGTH - 1);
    EXPECT("join, reason 6", GUPPYSPOON_JOIN_WORDS, GUPPYSPOON_BAD_LENGTH, 3, 0);
    join(both, both, GUPPYSPOON_JOINED_LENGTH);
    EXPECT("join, reason 3", GUPPYSPOON_JOIN_WORDS, GUPPYSPOON_BAD_ROWS, 0, 0);
    join(sheet, both, GUPPYSPOON_JOINED_LENGTH);
    EXPECT("reason 15", GUPPYSPOON_JOIN_WORDS, GUPPYSPOON_UNLIKE_SHEETS, 0, 0);
    expect_that("the joined sheet is left", memcmp(joined, both, sizeof both) == 0);
}

/* The gammas that are lost with beta, counted, and tried one by one. A refusal counts none. */
static void every_gamma(void)
{
    uint32_t lost = 0;
    for (uint32_t gamma = 0; gamma < P; gamma++) {
        prove(witness, (const uint32_t[]){beta[0], gamma, 2});
        lost += answer[0] == GUPPYSPOON_ZERO_DENOMINATOR;
    }
    guppyspoon_lost_gammas(P, N, LENT(witness), LENT(beta), LENT(answer));
    EXPECT("lost_gammas", GUPPYSPOON_LOST_GAMMAS_WORDS, GUPPYSPOON_ACCEPTED, 0, 4);
    expect_that("so many are refused by prove", lost == 4);
    guppyspoon_lost_gammas(P, N, LENT(witness), (const uint32_t[]){P}, GUPPYSPOON_LOST_GAMMAS_CHALLENGES, LENT(answer));
    EXPECT("lost_gammas, reason 7", GUPPYSPOON_LOST_GAMMAS_WORDS, GUPPYSPOON_BAD_ELEMENT, 6, 0);
    guppyspoon_lost_gammas(P, N, LENT(witness), LENT(pair), LENT(answer));
    EXPECT("lost_gammas, reason 6", GUPPYSPOON_LOST_GAMMAS_WORDS, GUPPYSPOON_BAD_LENGTH, 2, 0);
}

/* The witness from one layout to the other, and back. A refusal leaves what is written. */
static void every_transfer(void)
{
    guppyspoon_to_rows(N, LENT(by_columns), LENT(rows), LENT(answer));
    EXPECT("to_rows", GUPPYSPOON_TO_ROWS_WORDS, GUPPYSPOON_ACCEPTED, 0);
    expect_that("the witness row by row", memcmp(rows, witness, sizeof witness) == 0);
    guppyspoon_to_columns(N, LENT(rows), LENT(columns), LENT(answer));
    EXPECT("to_columns", GUPPYSPOON_TO_COLUMNS_WORDS, GUPPYSPOON_ACCEPTED, 0);
    expect_that("the witness column after column", memcmp(columns, by_columns, sizeof by_columns) == 0);
    guppyspoon_to_rows(N + 1, LENT(witness), LENT(rows), LENT(answer));
    EXPECT("to_rows, reason 3", GUPPYSPOON_TO_ROWS_WORDS, GUPPYSPOON_BAD_ROWS, 0);
    guppyspoon_to_rows(N, LENT(list), LENT(rows), LENT(answer));
    EXPECT("to_rows, reason 6", GUPPYSPOON_TO_ROWS_WORDS, GUPPYSPOON_BAD_LENGTH, 1);
    guppyspoon_to_columns(2 * GUPPYSPOON_MOST_ROWS_2013265921, LENT(witness), LENT(columns), LENT(answer));
    EXPECT("to_columns, reason 3", GUPPYSPOON_TO_COLUMNS_WORDS, GUPPYSPOON_BAD_ROWS, 0);
    guppyspoon_to_columns(N, LENT(witness), LENT(values), LENT(answer));
    EXPECT("to_columns, reason 6", GUPPYSPOON_TO_COLUMNS_WORDS, GUPPYSPOON_BAD_LENGTH, 2);
    expect_that("the rows are left", memcmp(rows, witness, sizeof witness) == 0);
    expect_that("the columns are left", memcmp(columns, by_columns, sizeof by_columns) == 0);
}

static void every_call(void)
{
    guppyspoon_inverse(P, 3, LENT(answer));
    EXPECT("inverse", GUPPYSPOON_INVERSE_WORDS, GUPPYSPOON_ACCEPTED, 0, 1, 6);
    guppyspoon_inverse(P, 0, LENT(answer));
    EXPECT("no inverse of 0", GUPPYSPOON_INVERSE_WORDS, GUPPYSPOON_ACCEPTED, 0, 0, GUPPYSPOON_NO_ELEMENT);
    guppyspoon_inverse(P, GUPPYSPOON_NO_ELEMENT, LENT(answer));
    EXPECT("no element", GUPPYSPOON_INVERSE_WORDS, GUPPYSPOON_BAD_ELEMENT, 0, 0, GUPPYSPOON_NO_ELEMENT);
    guppyspoon_interpolate(P, N, LENT(z), LENT(coefficients), LENT(scratch), LENT(answer));
    EXPECT("interpolate", GUPPYSPOON_INTERPOLATE_WORDS, GUPPYSPOON_ACCEPTED, 0);
    guppyspoon_evaluate(P, N, LENT(coefficients), LENT(values), LENT(scratch), LENT(answer));
    EXPECT("evaluate", GUPPYSPOON_EVALUATE_WORDS, GUPPYSPOON_ACCEPTED, 0);
    expect_that("interpolate, then evaluate", memcmp(values, z, sizeof z) == 0);
    guppyspoon_permutation(P, N, LENT(labels), LENT(positions), LENT(answer));
    EXPECT("permutation", GUPPYSPOON_PERMUTATION_WORDS, GUPPYSPOON_ACCEPTED, 0);
    expect_that("position 1 leads to 3", positions[1] == 3);
    guppyspoon_prepare(P, N, L, LENT(selectors), LENT(labels), LENT(prepared), LENT(scratch), LENT(answer));
    EXPECT("prepare", GUPPYSPOON_PREPARE_WORDS, GUPPYSPOON_ACCEPTED, 0);
    prove(witness, three);
    EXPECT("prove", GUPPYSPOON_PROVE_WORDS, GUPPYSPOON_ACCEPTED, 0);
    expect_that("the transcript", memcmp(transcript, proof, sizeof proof) == 0);
    open(LENT(list));
    EXPECT("open", GUPPYSPOON_OPEN_WORDS, GUPPYSPOON_ACCEPTED, 0);
    expect_that("the evaluations", memcmp(evaluations, evaluated, sizeof evaluated) == 0);
    expect_that("the opening polynomial", memcmp(opening, opened, sizeof opened) == 0);
    read(SHEET(sheet));
    EXPECT("read", GUPPYSPOON_READ_WORDS, GUPPYSPOON_ACCEPTED, 0, P, N, L, 0);
    expect_that("the sheet's witness", memcmp(sheet_witness, witness, sizeof witness) == 0);
    guppyspoon_deposit(SHEET(sheet), LENT(text), LENT(answer));
    EXPECT("deposit", GUPPYSPOON_DEPOSIT_WORDS, GUPPYSPOON_ACCEPTED, 0, sizeof printed - 1);
    expect_that("the text", memcmp(text, printed, sizeof printed) == 0);
}

/* check_rows, check_point and check_opening: each verdict. The prepared circuit is that of every_call. */
static void every_verdict(void)
{
    check_rows(witness, z);
    EXPECT("pass", GUPPYSPOON_CHECK_ROWS_WORDS, GUPPYSPOON_ACCEPTED, 0, GUPPYSPOON_ROWS_PASS, 0);
    check_rows((const uint32_t[]){2, 3, 6, 6, 6, 11}, (const uint32_t[]){1, 7});
    EXPECT("step", GUPPYSPOON_CHECK_ROWS_WORDS, GUPPYSPOON_ACCEPTED, 0, GUPPYSPOON_ROWS_STEP, 0);
    check_rows((const uint32_t[]){2, 3, 6, 6, 6, 11}, z);
    EXPECT("gate", GUPPYSPOON_CHECK_ROWS_WORDS, GUPPYSPOON_ACCEPTED, 0, GUPPYSPOON_ROWS_GATE, 1);
    check_rows(witness, (const uint32_t[]){2, 14});
    EXPECT("start", GUPPYSPOON_CHECK_ROWS_WORDS, GUPPYSPOON_ACCEPTED, 0, GUPPYSPOON_ROWS_START, 0);
    check_rows(witness, (const uint32_t[]){17, 14});
    EXPECT("no row verdict", GUPPYSPOON_CHECK_ROWS_WORDS, GUPPYSPOON_BAD_ELEMENT, 16, GUPPYSPOON_ROWS_NONE, 0);
    check_point(L, proof);
    EXPECT("accept", GUPPYSPOON_CHECK_POINT_WORDS, GUPPYSPOON_ACCEPTED, 0, GUPPYSPOON_POINT_ACCEPT);
    check_point(L, (const uint32_t[]){5, 15, 13, 7, 9, 14, 16, 2, 9, 12, 15});
    EXPECT("reject", GUPPYSPOON_CHECK_POINT_WORDS, GUPPYSPOON_ACCEPTED, 0, GUPPYSPOON_POINT_REJECT);
    check_point(N + 1, proof);
    EXPECT("no point verdict", GUPPYSPOON_CHECK_POINT_WORDS, GUPPYSPOON_BAD_PUBLICS, 0, GUPPYSPOON_POINT_NONE);
    check_opening(evaluated);
    EXPECT("opening accepted", GUPPYSPOON_CHECK_OPENING_WORDS, GUPPYSPOON_ACCEPTED, 0, GUPPYSPOON_POINT_ACCEPT);
    check_opening((const uint32_t[]){0, 10, 3, 3, 9});
    EXPECT("opening rejected", GUPPYSPOON_CHECK_OPENING_WORDS, GUPPYSPOON_ACCEPTED, 0, GUPPYSPOON_POINT_REJECT);
    check_opening((const uint32_t[]){0, 10, 3, 3, P});
    EXPECT("no opening verdict", GUPPYSPOON_CHECK_OPENING_WORDS, GUPPYSPOON_BAD_ELEMENT, 31, GUPPYSPOON_POINT_NONE);
}

/* Every call that lays a blinded transcript or is lent one, and the lengths that go together. The prepared circuit is that of every_call. */
static void every_blinded_call(void)
{
    prove_blinded(nine);
    EXPECT("prove_blinded", GUPPYSPOON_PROVE_BLINDED_WORDS, GUPPYSPOON_ACCEPTED, 0);
    expect_that("the blinded transcript", memcmp(blinded_transcript, blinded_proof, sizeof blinded_proof) == 0);
    prove_blinded((const uint32_t[]){1, 2, 3, 4, 5, 6, 7, 8, P});
    EXPECT("prove_blinded, reason 7", GUPPYSPOON_PROVE_BLINDED_WORDS, GUPPYSPOON_BAD_ELEMENT, 27);
    check_length(GUPPYSPOON_BLINDED_TRANSCRIPT_LENGTH(N), GUPPYSPOON_BLINDED_SCRATCH_LENGTH(N));
    EXPECT("blinded, accept", GUPPYSPOON_CHECK_POINT_WORDS, GUPPYSPOON_ACCEPTED, 0, GUPPYSPOON_POINT_ACCEPT);
    check_length(GUPPYSPOON_BLINDED_TRANSCRIPT_LENGTH(N), GUPPYSPOON_SCRATCH_LENGTH(N));
    EXPECT("the shorter scratch", GUPPYSPOON_CHECK_POINT_WORDS, GUPPYSPOON_BAD_LENGTH, 5, GUPPYSPOON_POINT_NONE);
    check_length(GUPPYSPOON_BLINDED_TRANSCRIPT_LENGTH(N) - 1, GUPPYSPOON_BLINDED_SCRATCH_LENGTH(N));
    EXPECT("neither length", GUPPYSPOON_CHECK_POINT_WORDS, GUPPYSPOON_BAD_LENGTH, 3, GUPPYSPOON_POINT_NONE);
    guppyspoon_open(P, N, LENT(prepared), LENT(blinded_proof), LENT(list), evaluations, sizeof list / sizeof *list, LENT(blinded_opening),
                    LENT(point), LENT(blinded_scratch), LENT(answer));
    EXPECT("blinded, open", GUPPYSPOON_OPEN_WORDS, GUPPYSPOON_ACCEPTED, 0);
    expect_that("the blinded evaluations", memcmp(evaluations, blinded_evaluated, sizeof blinded_evaluated) == 0);
    expect_that("the blinded opening", memcmp(blinded_opening, blinded_opened, sizeof blinded_opened) == 0);
    guppyspoon_check_opening(P, N, LENT(prepared), LENT(blinded_proof), LENT(list), LENT(blinded_evaluated), LENT(blinded_opened), LENT(point),
                             LENT(blinded_scratch), LENT(answer));
    EXPECT("blinded, opening accepted", GUPPYSPOON_CHECK_OPENING_WORDS, GUPPYSPOON_ACCEPTED, 0, GUPPYSPOON_POINT_ACCEPT);
}

/* A sheet with the line of nine numbers, read, deposited and joined. */
static void every_blinded_sheet(void)
{
    read(SHEET(blinded_sheet));
    EXPECT("blinded, read", GUPPYSPOON_READ_WORDS, GUPPYSPOON_ACCEPTED, 0, P, N, L, 1);
    expect_that("the challenges", memcmp(sheet_challenges, four, sizeof four) == 0);
    expect_that("the nine", memcmp(sheet_challenges + GUPPYSPOON_CHECK_POINT_CHALLENGES, nine, sizeof nine) == 0);
    guppyspoon_deposit(SHEET(blinded_sheet), LENT(text), LENT(answer));
    EXPECT("blinded, deposit", GUPPYSPOON_DEPOSIT_WORDS, GUPPYSPOON_ACCEPTED, 0, sizeof blinded_printed - 1);
    expect_that("the blinded text", memcmp(text, blinded_printed, sizeof blinded_printed) == 0);
    join(blinded_sheet, public_sheet, sizeof joined);
    EXPECT("blinded, join", GUPPYSPOON_JOIN_WORDS, GUPPYSPOON_ACCEPTED, 0, sizeof both - 1);
    expect_that("the line of nine is dropped", memcmp(joined, both, sizeof both) == 0);
}

/* The reasons that came with no join and no verdict above. */
static void every_reason(void)
{
    read(SHEET("17,2\n"));
    EXPECT("reason 1", GUPPYSPOON_READ_WORDS, GUPPYSPOON_BAD_START, 0, 0, 0, 0, 0);
    guppyspoon_inverse(P + 1, 3, LENT(answer));
    EXPECT("reason 2", GUPPYSPOON_INVERSE_WORDS, GUPPYSPOON_BAD_PRIME, 0, 0, GUPPYSPOON_NO_ELEMENT);
    guppyspoon_permutation(P, N + 1, LENT(labels), LENT(positions), LENT(answer));
    EXPECT("reason 3", GUPPYSPOON_PERMUTATION_WORDS, GUPPYSPOON_BAD_ROWS, 0);
    read(SHEET("17,2,0\n0,0,16,1,0,0,1,2\n1,1,16\n"));
    EXPECT("reason 5", GUPPYSPOON_READ_WORDS, GUPPYSPOON_BAD_LINE, 3, 0, 0, 0, 0);
    guppyspoon_deposit(SHEET(sheet), text, GUPPYSPOON_TEXT_LENGTH - 1, LENT(answer));
    EXPECT("reason 6", GUPPYSPOON_DEPOSIT_WORDS, GUPPYSPOON_BAD_LENGTH, 2, 0);
    guppyspoon_permutation(P, N, (const uint32_t[]){0, 2, 1, 2, 2, 6}, GUPPYSPOON_LABELS_LENGTH(N), LENT(positions), LENT(answer));
    EXPECT("reason 8", GUPPYSPOON_PERMUTATION_WORDS, GUPPYSPOON_BAD_LABEL, 5);
    prove((const uint32_t[]){2, 3, 6, 6, 6, 11}, three);
    EXPECT("reason 9", GUPPYSPOON_PROVE_WORDS, GUPPYSPOON_GATE_FAILS, 1);
    prove((const uint32_t[]){2, 3, 6, 5, 7, 12}, three);
    EXPECT("reason 10", GUPPYSPOON_PROVE_WORDS, GUPPYSPOON_COPY_FAILS, 3);
    prove(witness, (const uint32_t[]){1, 2, 2});
    EXPECT("reason 11", GUPPYSPOON_PROVE_WORDS, GUPPYSPOON_ZERO_DENOMINATOR, 1);
    open(list, 0);
    EXPECT("reason 12", GUPPYSPOON_OPEN_WORDS, GUPPYSPOON_BAD_LIST, 0);
    open((const uint32_t[]){12, 13}, 2);
    EXPECT("reason 13", GUPPYSPOON_OPEN_WORDS, GUPPYSPOON_BAD_NUMBER, 1);
    guppyspoon_prepare(P, N, 1, LENT(selectors), LENT(labels), LENT(prepared), LENT(scratch), LENT(answer));
    EXPECT("reason 14", GUPPYSPOON_PREPARE_WORDS, GUPPYSPOON_BAD_PUBLIC_ROW, 0);
}

/* 97, whatever else is lent: the calls that take new sheets refuse it, and reading takes it. */
static void retired_prime(void)
{
    static const char retired[] = "97,2,0\n0,0,96,1,0,0,1,2\n1,1,96,0,0,2,2,3\n2,3,6\n6,6,12\n1,1,2,2\n";
    static const char refused[] = "refused,16,0\n";
    guppyspoon_prove(97, 64, L, LENT(selectors), LENT(labels), LENT(witness), LENT(publics), LENT(transcript), LENT(three), LENT(scratch),
                     LENT(answer));
    EXPECT("prove, reason 16", GUPPYSPOON_PROVE_WORDS, GUPPYSPOON_RETIRED_PRIME, 0);
    guppyspoon_deposit(SHEET(retired), LENT(text), LENT(answer));
    EXPECT("deposit over 97", GUPPYSPOON_DEPOSIT_WORDS, GUPPYSPOON_ACCEPTED, 0, sizeof refused - 1);
    expect_that("deposit, reason 16", memcmp(text, refused, sizeof refused) == 0);
    join(sheet, retired, GUPPYSPOON_JOINED_LENGTH);
    EXPECT("join, reason 16", GUPPYSPOON_JOIN_WORDS, GUPPYSPOON_RETIRED_PRIME, 0, 0);
    read(SHEET(retired));
    EXPECT("read over 97", GUPPYSPOON_READ_WORDS, GUPPYSPOON_ACCEPTED, 0, 97, N, L, 0);
}

/* So many rows of a prime are taken, and twice as many are not. Only labels are lent: all zeros. */
static void most_rows(const char *name, uint32_t p, uint32_t n)
{
    static const uint32_t zeros[GUPPYSPOON_LABELS_LENGTH(GUPPYSPOON_MOST_ROWS_2013265921)];
    static uint32_t room[GUPPYSPOON_POSITIONS_LENGTH(GUPPYSPOON_MOST_ROWS_2013265921)];
    guppyspoon_permutation(p, n, zeros, GUPPYSPOON_LABELS_LENGTH(n), room, GUPPYSPOON_POSITIONS_LENGTH(n), LENT(answer));
    EXPECT(name, GUPPYSPOON_PERMUTATION_WORDS, GUPPYSPOON_ACCEPTED, 0);
    guppyspoon_permutation(p, 2 * n, zeros, 0, room, 0, LENT(answer));
    EXPECT(name, GUPPYSPOON_PERMUTATION_WORDS, GUPPYSPOON_BAD_ROWS, 0);
}

/* The same of a sheet, which is then wanting its line 2. */
static void most_rows_sheet(void)
{
    char line[40];
    sprintf(line, "%d,%d,0\n", LARGEST, GUPPYSPOON_MOST_ROWS_SHEET);
    read(SHEET(line));
    EXPECT("most rows of a sheet", GUPPYSPOON_READ_WORDS, GUPPYSPOON_BAD_LINE, 2, 0, 0, 0, 0);
    sprintf(line, "%d,%d,0\n", LARGEST, 2 * GUPPYSPOON_MOST_ROWS_SHEET);
    read(SHEET(line));
    EXPECT("most rows of a sheet", GUPPYSPOON_READ_WORDS, GUPPYSPOON_BAD_ROWS, 0, 0, 0, 0, 0);
}

/* A sheet with zeros behind its last line, which are a line 7 out of form, up to the greatest length and past it. */
static void most_bytes(void)
{
    static uint8_t bytes[GUPPYSPOON_SHEET_MOST_BYTES + 1];
    memcpy(bytes, sheet, sizeof sheet);
    read(bytes, GUPPYSPOON_SHEET_MOST_BYTES);
    EXPECT("most bytes", GUPPYSPOON_READ_WORDS, GUPPYSPOON_BAD_LINE, 7, 0, 0, 0, 0);
    read(bytes, GUPPYSPOON_SHEET_MOST_BYTES + 1);
    EXPECT("most bytes", GUPPYSPOON_READ_WORDS, GUPPYSPOON_BAD_START, 0, 0, 0, 0, 0);
}

/* So many numbers of polynomials are taken, and one more is not. */
static void most_list(void)
{
    static const uint32_t zeros[GUPPYSPOON_LIST_MOST_LENGTH + 1];
    open(zeros, GUPPYSPOON_LIST_MOST_LENGTH);
    EXPECT("longest list", GUPPYSPOON_OPEN_WORDS, GUPPYSPOON_ACCEPTED, 0);
    open(zeros, GUPPYSPOON_LIST_MOST_LENGTH + 1);
    EXPECT("longest list", GUPPYSPOON_OPEN_WORDS, GUPPYSPOON_BAD_LIST, 0);
}

int main(void)
{
    for (size_t i = 0; i < ROOM; i++)
        answer[i] = UNTOUCHED;
    every_call();
    every_join();
    every_gamma();
    every_transfer();
    every_verdict();
    every_blinded_call();
    every_blinded_sheet();
    every_reason();
    retired_prime();
    most_rows("most rows of 17", 17, GUPPYSPOON_MOST_ROWS_17);
    most_rows("most rows of 97", 97, GUPPYSPOON_MOST_ROWS_97);
    most_rows("most rows of 2013265921", LARGEST, GUPPYSPOON_MOST_ROWS_2013265921);
    most_rows_sheet();
    most_bytes();
    most_list();
    return differences > 0;
}
