/* Opens books and makes the calls of the worked example, printing each answer as a line. */
#include <inttypes.h>
#include <stdio.h>
#include <stdlib.h>
#include <string.h>

#include "butqamer.h"

struct call {
    uint8_t number;
    size_t fields;
    uint64_t field[3];
};

struct books {
    uint64_t *wide;
    size_t wide_len;
    uint32_t *narrow;
    size_t narrow_len;
    uint8_t *answer;
    size_t answer_len;
};

static uint64_t read_number(const uint8_t *bytes) {
    uint64_t n = 0;
    for (int k = 7; k >= 0; k--) n = n << 8 | bytes[k];
    return n;
}

static size_t write_call(uint8_t *bytes, const struct call *call) {
    bytes[0] = call->number;
    for (size_t f = 0; f < call->fields; f++)
        for (int k = 0; k < 8; k++) bytes[1 + 8 * f + k] = (uint8_t)(call->field[f] >> (8 * k));
    return 1 + 8 * call->fields;
}

static void print_answer(const uint8_t *a) {
    switch (a[0]) {
    case 0: printf("refused %" PRIu64 " at %" PRIu64 "\n", read_number(a + 1), read_number(a + 9)); break;
    case 1: printf("%" PRIu64 "\n", read_number(a + 1)); break;
    case 2: printf("%" PRIu64 " %" PRIu64 "\n", read_number(a + 1), read_number(a + 9)); break;
    default: {
        uint64_t count = read_number(a + 1);
        if (count == 0) printf("none");
        for (uint64_t k = 0; k < count; k++) {
            const uint8_t *row = a + 9 + 32 * k;
            printf("%s%" PRIu64 " %" PRIu64 " %" PRIu64 " %" PRIu64, k ? ", " : "", read_number(row),
                   read_number(row + 8), read_number(row + 16), read_number(row + 24));
        }
        printf("\n");
    }
    }
}

static int64_t opened(struct books *b, const uint64_t *limits, size_t limits_len) {
    int64_t wide = books_wide(limits, limits_len), narrow = books_narrow(limits, limits_len);
    int64_t answer = books_answer(limits, limits_len);
    if (wide < 0 || narrow < 0 || answer < 0) return -1;
    b->wide_len = (size_t)wide, b->narrow_len = (size_t)narrow, b->answer_len = (size_t)answer;
    b->wide = calloc(b->wide_len, sizeof *b->wide);
    b->narrow = calloc(b->narrow_len, sizeof *b->narrow);
    b->answer = calloc(b->answer_len, 1);
    if (!b->wide || !b->narrow || !b->answer) return -1;
    return books_open(b->wide, b->wide_len, b->narrow, b->narrow_len, limits, limits_len);
}

int main(void) {
    static const uint64_t limits[] = {32, 64, 128, 32, 256};
    static const struct call calls[] = {
        {0, 3, {0, 100, 7}},  /* buys 0 100 7 */
        {2, 2, {0, 60}},      /* comes 0 60 */
        {2, 2, {0, 41}},      /* comes 0 41 */
        {0, 3, {0, 10, 10}},  /* buys 0 10 10 */
        {2, 2, {1, 10}},      /* comes 1 10 */
        {11, 1, {0}},         /* stock of 0 */
        {14, 1, {0}},         /* lots of 0 */
        {14, 1, {3}},         /* lots of 3 */
        {13, 1, {0}},         /* order 0 */
        {12, 1, {0}},         /* account 0 */
        {12, 1, {1}},         /* account 1 */
        {4, 3, {0, 50, 360}}, /* billed by 0 50 360 */
        {6, 1, {361}},        /* pays out 361 */
        {6, 1, {360}},        /* pays out 360 */
        {12, 1, {2}},         /* account 2 */
        {9, 2, {3, 21}},      /* makes 3 21 */
    };
    struct books b;
    if (opened(&b, limits, sizeof limits / sizeof *limits) != 0) {
        fprintf(stderr, "the books could not be opened\n");
        return 1;
    }
    for (size_t k = 0; k < sizeof calls / sizeof *calls; k++) {
        uint8_t bytes[25];
        size_t len = write_call(bytes, &calls[k]);
        int64_t n = books_call(b.wide, b.wide_len, b.narrow, b.narrow_len, bytes, len, b.answer, b.answer_len);
        if (n < 0) {
            fprintf(stderr, "the call could not be made: %" PRId64 "\n", n);
            return 1;
        }
        print_answer(b.answer);
    }
    free(b.wide), free(b.narrow), free(b.answer);
    return 0;
}
