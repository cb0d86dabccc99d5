/* Tests every name of include/hvoyanur.h and the calls behind them, on games whose answers were worked out by hand.
 * Prints the line of each expectation that fails, and then returns 1; otherwise prints nothing and returns 0. The text
 * is C99 and C++ alike. */
#include <stdio.h>
#include <string.h>

#include "hvoyanur.h"

enum { NEVER = HVOYANUR_MARK_NEVER, UNKNOWN = HVOYANUR_MARK_OPEN, SURE = HVOYANUR_MARK_SURE, NONE = HVOYANUR_NONE };

/* What lent memory holds before a call: FILLING in each byte, and so FILLED in each place of a row. */
enum { FILLING = 0xa5, FILLED = 0xa5a5 };

/* The game M: states 0, 3, 4 of side 1 and 1, 2 of side 2, start 0, target 3, reach, 1 and 2 in one block. */
static const uint8_t m[] = {
    8, 0, 1, 0, 5, 0, 7, 0, 1, 0,
    6, 0, 2, 0, 1, 1, 0, 0, /* state 0 stands at byte 10 */
    6, 0, 2, 0, 2, 0, 1, 0, /* state 1 at 18 */
    6, 0, 2, 0, 2, 0, 1, 0, /* state 2 at 26 */
    6, 0, 2, 0, 1, 2, 3, 0, /* state 3 at 34 */
    6, 0, 2, 0, 1, 0, 4, 0, /* state 4 at 42 */
    6, 0, 3, 0, 0, 0, 1, 0, /* 0 to 1 at 50 */
    6, 0, 3, 0, 0, 0, 2, 0, /* 0 to 2 at 58 */
    6, 0, 3, 0, 1, 0, 3, 0, /* 1 to 3 at 66 */
    6, 0, 3, 0, 2, 0, 3, 0, /* 2 to 3 at 74 */
    6, 0, 3, 0, 2, 0, 4, 0, /* 2 to 4 at 82 */
    6, 0, 3, 0, 3, 0, 3, 0, /* 3 to 3 at 90 */
    6, 0, 3, 0, 4, 0, 4, 0, /* 4 to 4 at 98 */
};
enum { M_LENGTH = 106 };

/* M with the sides exchanged: stay, the turns flipped, every state but 3 as target. */
static const uint8_t m_exchanged[] = {
    8, 0, 1, 0, 5, 0, 7, 0, 2, 0,
    6, 0, 2, 0, 2, 3, 0, 0,
    6, 0, 2, 0, 1, 2, 1, 0,
    6, 0, 2, 0, 1, 2, 1, 0,
    6, 0, 2, 0, 2, 0, 3, 0,
    6, 0, 2, 0, 2, 2, 4, 0,
    6, 0, 3, 0, 0, 0, 1, 0,
    6, 0, 3, 0, 0, 0, 2, 0,
    6, 0, 3, 0, 1, 0, 3, 0,
    6, 0, 3, 0, 2, 0, 3, 0,
    6, 0, 3, 0, 2, 0, 4, 0,
    6, 0, 3, 0, 3, 0, 3, 0,
    6, 0, 3, 0, 4, 0, 4, 0,
};

/* What is lent. The output has one byte more than any exchanged file. */
static uint16_t marks[HVOYANUR_MAX_STATES], blocks[HVOYANUR_MAX_STATES], moves[HVOYANUR_MAX_STATES];
static uint8_t out[HVOYANUR_MAX_FILE + 1];

static int failed;

static void expect_at(int line, int holds, const char *what)
{
    if (!holds) {
        printf("tests/outside/header.c, line %d: %s\n", line, what);
        failed = 1;
    }
}

#define EXPECT(holds) expect_at(__LINE__, holds, #holds)

static void fill(void)
{
    memset(marks, FILLING, sizeof marks);
    memset(blocks, FILLING, sizeof blocks);
    memset(moves, FILLING, sizeof moves);
    memset(out, FILLING, sizeof out);
}

/* Whether the rows hold after their first places what they held before the call. */
static int rows_kept_after(size_t written)
{
    for (size_t s = written; s < HVOYANUR_MAX_STATES; s++)
        if (marks[s] != FILLED || blocks[s] != FILLED || moves[s] != FILLED)
            return 0;
    return 1;
}

/* Whether the output holds after its first bytes what it held before the call. */
static int out_kept_after(size_t written)
{
    for (size_t i = written; i < sizeof out; i++)
        if (out[i] != FILLING)
            return 0;
    return 1;
}

static uint64_t solve(const uint8_t *file, size_t length, uint16_t allowance)
{
    fill();
    return hvoyanur_solve(file, length, marks, HVOYANUR_MAX_STATES, blocks, HVOYANUR_MAX_STATES, moves,
                          HVOYANUR_MAX_STATES, allowance);
}

/* The number that stands for an answer's three parts. */
static uint64_t joined(unsigned word, unsigned named, unsigned splits)
{
    return ((uint64_t)word << 32) + ((uint64_t)named << 16) + splits;
}

/* An answer to a game of at most five states. */
struct due {
    unsigned word, named, splits, states;
    uint16_t marks[5], blocks[5], moves[5];
};

static void solves_at(int line, const uint8_t *file, size_t length, uint16_t allowance, const struct due *due)
{
    uint64_t answer = solve(file, length, allowance);
    size_t row = due->states * sizeof marks[0];

    expect_at(line, hvoyanur_word(answer) == due->word, "the word");
    expect_at(line, hvoyanur_named(answer) == due->named, "the named start");
    expect_at(line, hvoyanur_splits(answer) == due->splits, "the splits");
    expect_at(line, answer == joined(due->word, due->named, due->splits), "the whole number");
    expect_at(line, memcmp(marks, due->marks, row) == 0, "the marks");
    expect_at(line, memcmp(blocks, due->blocks, row) == 0, "the blocks");
    expect_at(line, memcmp(moves, due->moves, row) == 0, "the moves");
    expect_at(line, rows_kept_after(due->states), "the places after the states keep their content");
}

#define SOLVES(file, length, allowance, due) solves_at(__LINE__, file, length, allowance, due)

/* A file that both calls refuse, with all that is lent as it was. */
static void refuses_at(int line, const uint8_t *file, size_t length, unsigned number)
{
    uint64_t answer = solve(file, length, 511);

    expect_at(line, hvoyanur_word(answer) == HVOYANUR_REFUSED, "refused");
    expect_at(line, hvoyanur_named(answer) == number, "the refusal's number");
    expect_at(line, hvoyanur_splits(answer) == 0, "no splits with a refusal");
    expect_at(line, answer == joined(0, number, 0), "the whole number of a refusal");
    expect_at(line, rows_kept_after(0), "the rows keep their content");

    answer = hvoyanur_exchange(file, length, out, sizeof out);
    expect_at(line, !hvoyanur_written(answer), "the exchange refuses");
    expect_at(line, hvoyanur_length(answer) == number, "the number of the exchange's refusal");
    expect_at(line, answer == number, "the whole number of the exchange's refusal");
    expect_at(line, out_kept_after(0), "the output keeps its content");
}

#define REFUSES(file, length, number) refuses_at(__LINE__, file, length, number)

static void test_names(void)
{
    EXPECT(HVOYANUR_MAX_STATES == 512);
    EXPECT(HVOYANUR_MAX_FILE == 10 + 8 * 512 + 8 * 4096);
    EXPECT(HVOYANUR_NONE == 65535);
    EXPECT(HVOYANUR_REFUSED == 0 && HVOYANUR_YES == 1 && HVOYANUR_NO == 2 && HVOYANUR_OPEN == 3);
    EXPECT(HVOYANUR_MARK_NEVER == 0 && HVOYANUR_MARK_OPEN == 1 && HVOYANUR_MARK_SURE == 2);
    EXPECT(sizeof m == M_LENGTH && sizeof m_exchanged == M_LENGTH);
}

static void test_parts(void)
{
    const uint64_t made_up = UINT64_C(3) * 4294967296 + UINT64_C(65534) * 65536 + 65533;
    const uint64_t written = UINT64_C(4294967296) + 4294967295;

    EXPECT(hvoyanur_word(made_up) == 3);
    EXPECT(hvoyanur_named(made_up) == 65534);
    EXPECT(hvoyanur_splits(made_up) == 65533);
    EXPECT(hvoyanur_word(0) == 0 && hvoyanur_named(0) == 0 && hvoyanur_splits(0) == 0);
    EXPECT(hvoyanur_named(65535) == 0 && hvoyanur_splits(65536) == 0);
    EXPECT(hvoyanur_written(written) && hvoyanur_length(written) == 4294967295);
    EXPECT(!hvoyanur_written(11) && hvoyanur_length(11) == 11);
}

/* P1, P2 and P3 of the sheet of cases. */
static void test_m(void)
{
    static const struct due p1 = { HVOYANUR_YES, 0, 1, 5,
        { SURE, SURE, NEVER, SURE, NEVER }, { 0, 1, 2, 3, 4 }, { 1, NONE, NONE, NONE, NONE } };
    static const struct due p2 = { HVOYANUR_OPEN, NONE, 0, 5,
        { UNKNOWN, UNKNOWN, UNKNOWN, SURE, NEVER }, { 0, 1, 1, 3, 4 }, { NONE, NONE, NONE, NONE, NONE } };
    static const struct due p3 = { HVOYANUR_NO, NONE, 1, 5,
        { NEVER, SURE, NEVER, SURE, NEVER }, { 0, 1, 2, 3, 4 }, { NONE, NONE, 4, NONE, NONE } };
    uint8_t fewer[M_LENGTH - 8];

    SOLVES(m, sizeof m, 511, &p1);
    SOLVES(m, sizeof m, 1, &p1);
    SOLVES(m, sizeof m, 65535, &p1);
    SOLVES(m, sizeof m, 0, &p2);

    /* M without the move 0 to 1. */
    memcpy(fewer, m, 50);
    memcpy(fewer + 50, m + 58, 48);
    fewer[6] = 6;
    SOLVES(fewer, sizeof fewer, 511, &p3);
}

/* P5, P6 and P7: a single state of side 1 with a move to itself. */
static void test_one_state(void)
{
    static const struct due p5 = { HVOYANUR_YES, 0, 0, 1, { SURE }, { 0 }, { NONE } };
    static const struct due p6 = { HVOYANUR_NO, NONE, 0, 1, { NEVER }, { 0 }, { NONE } };
    static const struct due p7 = { HVOYANUR_YES, 0, 0, 1, { SURE }, { 0 }, { 0 } };
    static const uint8_t reach[] = { 8, 0, 1, 0, 1, 0, 1, 0, 1, 0, 6, 0, 2, 0, 1, 3, 0, 0, 6, 0, 3, 0, 0, 0, 0, 0 };
    static const uint8_t no_target[] = { 8, 0, 1, 0, 1, 0, 1, 0, 1, 0, 6, 0, 2, 0, 1, 1, 0, 0, 6, 0, 3, 0, 0, 0, 0, 0 };
    static const uint8_t stay[] = { 8, 0, 1, 0, 1, 0, 1, 0, 2, 0, 6, 0, 2, 0, 1, 3, 0, 0, 6, 0, 3, 0, 0, 0, 0, 0 };

    SOLVES(reach, sizeof reach, 511, &p5);
    SOLVES(no_target, sizeof no_target, 511, &p6);
    SOLVES(stay, sizeof stay, 511, &p7);
}

/* The exchange of M, the way back, and P4: the exchange's own bytes, solved. */
static void test_exchange(void)
{
    static const struct due p4 = { HVOYANUR_NO, NONE, 1, 5,
        { NEVER, NEVER, SURE, NEVER, SURE }, { 0, 1, 2, 3, 4 }, { 1, NONE, NONE, NONE, NONE } };
    uint8_t other[M_LENGTH];
    uint64_t answer;

    fill();
    answer = hvoyanur_exchange(m, sizeof m, out, sizeof out);
    EXPECT(hvoyanur_written(answer));
    EXPECT(hvoyanur_length(answer) == 106);
    EXPECT(answer == joined(1, 0, 106));
    EXPECT(memcmp(out, m_exchanged, sizeof m) == 0);
    EXPECT(out_kept_after(sizeof m));
    memcpy(other, out, sizeof other);
    SOLVES(other, sizeof other, 511, &p4);

    fill();
    answer = hvoyanur_exchange(other, sizeof other, out, sizeof other);
    EXPECT(hvoyanur_written(answer) && hvoyanur_length(answer) == 106);
    EXPECT(memcmp(out, m, sizeof m) == 0);
    EXPECT(out_kept_after(sizeof m));
}

/* Edits of M: a byte at a place becomes another, the file has a length, and a refusal is due. */
static const struct { int line; size_t at; uint8_t byte; size_t length; unsigned number; } edits[] = {
    { __LINE__, 0, 8, 9, 2 }, /* a cut head */
    { __LINE__, 0, 8, 10, 2 }, /* a good head alone */
    { __LINE__, 0, 8, 105, 2 }, /* a byte is missing at the end */
    { __LINE__, 102, 9, 105, 2 }, /* it is missing, and the field before it is bad */
    { __LINE__, 0, 9, 106, 3 }, /* the head's length */
    { __LINE__, 12, 3, 106, 3 }, /* a move where a state is due */
    { __LINE__, 51, 1, 106, 3 }, /* a move's length */
    { __LINE__, 4, 0, 106, 4 }, /* no states */
    { __LINE__, 6, 0, 106, 4 }, /* no moves */
    { __LINE__, 8, 0, 106, 4 }, { __LINE__, 8, 3, 106, 4 }, /* neither reach nor stay */
    { __LINE__, 14, 3, 106, 5 }, { __LINE__, 14, 0, 106, 5 }, /* a turn of neither side */
    { __LINE__, 15, 4, 106, 5 }, /* marks above 3 */
    { __LINE__, 16, 1, 106, 5 }, /* state 0 with block 1 */
    { __LINE__, 40, 2, 106, 5 }, /* state 3 with block 2, while state 2 has block 1 */
    { __LINE__, 14, 3, 107, 5 }, /* a bad turn and a byte at the end */
    { __LINE__, 54, 5, 106, 6 }, { __LINE__, 56, 5, 106, 6 }, /* a move from and to no state */
    { __LINE__, 64, 1, 106, 6 }, { __LINE__, 64, 0, 106, 6 }, /* the move before again, and one below it */
    { __LINE__, 0, 8, 107, 7 }, /* a byte at the end */
    { __LINE__, 15, 0, 107, 7 }, /* the same, and no start */
    { __LINE__, 15, 0, 106, 8 }, /* no start */
    { __LINE__, 102, 3, 106, 9 }, /* 3 to 4 where 4 to 4 was */
    { __LINE__, 31, 1, 106, 10 }, /* state 2 is a start, state 1 of its block is not */
    { __LINE__, 31, 3, 106, 10 }, /* state 2 is start and target, state 1 is neither */
    { __LINE__, 31, 2, 106, 11 }, /* state 2 is target, state 1 is not */
};

static void test_edits(void)
{
    uint8_t file[M_LENGTH + 1];

    for (size_t i = 0; i < sizeof edits / sizeof edits[0]; i++) {
        memcpy(file, m, sizeof m);
        file[M_LENGTH] = 0;
        file[edits[i].at] = edits[i].byte;
        refuses_at(edits[i].line, file, edits[i].length, edits[i].number);
    }
}

/* Refusals of files that are not one edit away from M. */
static void test_other_files(void)
{
    static const uint8_t too_many_states[] = { 8, 0, 1, 0, 1, 2, 7, 0, 1, 0 };
    static const uint8_t too_many_moves[] = { 8, 0, 1, 0, 5, 0, 1, 16, 1, 0 };
    static const uint8_t no_start_no_move[] = {
        8, 0, 1, 0, 2, 0, 1, 0, 1, 0, 6, 0, 2, 0, 1, 0, 0, 0, 6, 0, 2, 0, 1, 2, 1, 0, 6, 0, 3, 0, 0, 0, 1, 0 };

    REFUSES(NULL, 0, 2);
    REFUSES(too_many_states, sizeof too_many_states, 4);
    REFUSES(too_many_moves, sizeof too_many_moves, 4);
    REFUSES(no_start_no_move, sizeof no_start_no_move, 8);
}

static void short_rows_at(int line, const uint8_t *file, size_t length, size_t marks_length, size_t blocks_length,
                          size_t moves_length)
{
    fill();
    uint64_t answer = hvoyanur_solve(file, length, marks_length > 0 ? marks : NULL, marks_length, blocks, blocks_length,
                                     moves, moves_length, 511);

    expect_at(line, hvoyanur_word(answer) == HVOYANUR_REFUSED && hvoyanur_named(answer) == 1, "refusal 1");
    expect_at(line, answer == joined(0, 1, 0), "the whole number of refusal 1");
    expect_at(line, rows_kept_after(0), "short rows keep their content");
}

/* Refusal 1: a row is too short, which is tested before the file, or an output, which is tested after it. */
static void test_too_short(void)
{
    const size_t enough = HVOYANUR_MAX_STATES;

    short_rows_at(__LINE__, m, sizeof m, enough - 1, enough, enough);
    short_rows_at(__LINE__, m, sizeof m, enough, enough - 1, enough);
    short_rows_at(__LINE__, m, sizeof m, enough, enough, enough - 1);
    short_rows_at(__LINE__, m, sizeof m, 0, enough, enough);
    short_rows_at(__LINE__, NULL, 0, enough, enough, enough - 1);

    fill();
    EXPECT(hvoyanur_exchange(m, sizeof m, out, sizeof m - 1) == 1);
    EXPECT(hvoyanur_exchange(m, sizeof m, NULL, 0) == 1);
    EXPECT(hvoyanur_exchange(m, sizeof m - 1, out, 3) == 2);
    EXPECT(out_kept_after(0));
}

static uint8_t *put(uint8_t *at, unsigned number)
{
    at[0] = (uint8_t)(number & 255);
    at[1] = (uint8_t)(number >> 8);
    return at + 2;
}

/* Writes a file of 512 states and 4,096 moves, and returns its end: every state is of side 1 and a block of its own, 0
 * is the start, 511 the target, and each state has moves to 0, 1, 2, 3, 4, 5, 6 and 511. */
static uint8_t *largest(uint8_t *at)
{
    at = put(put(put(put(put(at, 8), 1), 512), 4096), 1);
    for (unsigned s = 0; s < 512; s++) {
        at = put(put(at, 6), 2);
        *at++ = 1;
        *at++ = s == 0 ? 1 : s == 511 ? 2 : 0;
        at = put(at, s);
    }
    for (unsigned from = 0; from < 512; from++)
        for (unsigned i = 0; i < 8; i++)
            at = put(put(put(put(at, 6), 3), from), i < 7 ? i : 511);
    return at;
}

/* The largest file is accepted, by both calls, and with one byte more it is refused. */
static void test_largest(void)
{
    static uint8_t file[HVOYANUR_MAX_FILE + 1], other[HVOYANUR_MAX_FILE];
    unsigned right = 0;
    uint64_t answer;

    EXPECT(largest(file) == file + HVOYANUR_MAX_FILE);
    EXPECT(solve(file, HVOYANUR_MAX_FILE, 511) == joined(HVOYANUR_YES, 0, 0));
    for (unsigned s = 0; s < 512; s++)
        right += marks[s] == SURE && blocks[s] == s && moves[s] == (s < 511 ? 511 : NONE);
    EXPECT(right == 512);

    answer = hvoyanur_exchange(file, HVOYANUR_MAX_FILE, out, HVOYANUR_MAX_FILE);
    EXPECT(hvoyanur_written(answer) && hvoyanur_length(answer) == HVOYANUR_MAX_FILE);
    EXPECT(out_kept_after(HVOYANUR_MAX_FILE));
    memcpy(other, out, sizeof other);
    EXPECT(memcmp(other, file, sizeof other) != 0);
    answer = hvoyanur_exchange(other, sizeof other, out, sizeof out);
    EXPECT(hvoyanur_written(answer) && memcmp(out, file, sizeof other) == 0);
    EXPECT(out_kept_after(HVOYANUR_MAX_FILE));

    file[HVOYANUR_MAX_FILE] = 0;
    REFUSES(file, HVOYANUR_MAX_FILE + 1, 7);
}

int main(void)
{
    test_names();
    test_parts();
    test_m();
    test_one_state();
    test_exchange();
    test_edits();
    test_other_files();
    test_too_short();
    test_largest();
    return failed;
}
