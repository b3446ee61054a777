/* Proves the numbers of worked.sheet through the library, and prints a, b, c, z and t as `deposit` prints them. */
#include <guppyspoon.h>
#include <stdio.h>

enum { P = 17, N = 2, L = 0 };

/* Column after column: qL, qR, qO, qM, qC; the labels of a, b, c. Row by row: a, b, c. */
static const uint32_t selectors[] = {0, 1, 0, 1, 16, 16, 1, 0, 0, 0};
static const uint32_t labels[] = {0, 2, 1, 2, 2, 3};
static const uint32_t witness[] = {2, 3, 6, 6, 6, 12};
static const uint32_t publics[] = {0}; /* lent with length 0, but never null */
static const uint32_t challenges[] = {1, 1, 2};

static void print(char letter, const uint32_t *coefficients, size_t length)
{
    putchar(letter);
    for (size_t i = 0; i < length; i++)
        printf(",%lu", (unsigned long)coefficients[i]);
    putchar('\n');
}

int main(void)
{
    uint32_t transcript[GUPPYSPOON_TRANSCRIPT_LENGTH(N)];
    uint32_t scratch[GUPPYSPOON_SCRATCH_LENGTH(N)];
    uint32_t answer[GUPPYSPOON_PROVE_WORDS];

    guppyspoon_prove(P, N, L, selectors, GUPPYSPOON_SELECTORS_LENGTH(N), labels, GUPPYSPOON_LABELS_LENGTH(N), witness,
                     GUPPYSPOON_WITNESS_LENGTH(N), publics, L, transcript, GUPPYSPOON_TRANSCRIPT_LENGTH(N), challenges,
                     GUPPYSPOON_PROVE_CHALLENGES, scratch, GUPPYSPOON_SCRATCH_LENGTH(N), answer, GUPPYSPOON_PROVE_WORDS);
    if (answer[0] != GUPPYSPOON_ACCEPTED) {
        printf("refused,%lu,%lu\n", (unsigned long)answer[0], (unsigned long)answer[1]);
        return 1;
    }
    for (size_t k = 0; k < 4; k++)
        print("abcz"[k], transcript + k * N, N);
    print('t', transcript + 4 * N, GUPPYSPOON_TRANSCRIPT_LENGTH(N) - 4 * N);
    return 0;
}
