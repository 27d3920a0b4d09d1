/* Makes a few calls by way of include/glintstring.h, and looks at its words; it is compiled as C99 and as C++. Prints the number of the first that is not as it should be. */
#include <glintstring.h>
#include <stdio.h>
#include <string.h>

static const uint8_t file_a[48] = {4, 3, 3, 3, 5, 7, 3, 1, 2, 0, 1, 6, 1, 0, 2,   4, 0, 3, 0, 0, 1, 1, 3, 2,
                                   1, 2, 1, 0, 0, 0, 2, 0, 255, 2, 1, 1, 0, 2, 1, 2, 1, 0, 0, 0, 1, 7, 1, 2};

/* The derivation of case 14, of nine lines. */
static const uint8_t nine_lines[171] = {
    0, 9, 4, 0, 3, 5, 7, 0, 0, 4, 0, 3, 5, 7, 1, 0,
    4, 0, 3, 5, 7, 0, 0, 1, 7, 6, 1, 0, 0,
    4, 0, 3, 5, 7, 0, 1, 255, 2, 1, 1, 0, 2, 1, 2, 1, 0, 0, 0, 1, 7, 4, 1, 0, 1,
    4, 1, 3, 5, 7, 0, 1, 1, 4, 1, 2, 5, 7, 2, 0,
    4, 1, 2, 5, 7, 0, 1, 2, 4, 1, 2, 4, 7, 2, 0,
    4, 1, 3, 5, 7, 0, 2, 1, 2, 4, 1, 2, 4, 7, 5, 2, 0, 3, 0, 4,
    4, 1, 3, 5, 7, 0, 2, 1, 2, 1, 7, 6, 1, 0, 5,
    4, 1, 3, 5, 7, 0, 1, 255, 2, 1, 1, 0, 2, 1, 2, 1, 0, 0, 0, 1, 7, 4, 1, 0, 6,
    3, 3, 5, 7, 0, 2, 0, 255, 2, 1, 1, 0, 2, 1, 2, 1, 0, 0, 0, 1, 7, 3, 2, 0, 2, 0, 7};

/* A derivation of File A in the closing layout: the nine lines with the rule before Y, nine for fluent 2, and the closing list. */
static const uint8_t eighteen_lines[328] = {
    0, 18, 4, 0, 3, 5, 7, 0, 0, 1, 4, 0, 3, 5, 7, 0,
    4, 0, 3, 5, 7, 0, 0, 6, 1, 7, 1, 0, 0,
    4, 0, 3, 5, 7, 0, 1, 255, 2, 1, 1, 0, 2, 1, 2, 1, 0, 0, 0, 4, 1, 7, 1, 0, 1,
    4, 1, 3, 5, 7, 0, 1, 1, 2, 4, 1, 2, 5, 7, 0,
    4, 1, 2, 5, 7, 0, 1, 2, 2, 4, 1, 2, 4, 7, 0,
    4, 1, 3, 5, 7, 0, 2, 1, 2, 5, 4, 1, 2, 4, 7, 2, 0, 3, 0, 4,
    4, 1, 3, 5, 7, 0, 2, 1, 2, 6, 1, 7, 1, 0, 5,
    4, 1, 3, 5, 7, 0, 1, 255, 2, 1, 1, 0, 2, 1, 2, 1, 0, 0, 0, 4, 1, 7, 1, 0, 6,
    3, 3, 5, 7, 0, 2, 0, 255, 2, 1, 1, 0, 2, 1, 2, 1, 0, 0, 0, 3, 1, 7, 2, 0, 2, 0, 7,
    3, 3, 5, 7, 0, 1, 0, 7, 0, 0,
    4, 0, 3, 5, 7, 0, 0, 6, 1, 5, 1, 0, 0,
    4, 0, 3, 5, 7, 0, 0, 8, 2, 1, 0, 10,
    4, 0, 3, 5, 7, 0, 1, 255, 2, 1, 1, 0, 2, 1, 2, 1, 0, 0, 0, 12, 2, 1, 0, 11,
    4, 1, 2, 5, 7, 0, 1, 2, 6, 1, 4, 1, 0, 4,
    4, 1, 2, 5, 7, 0, 1, 2, 8, 2, 1, 0, 13,
    4, 1, 3, 5, 7, 0, 2, 1, 2, 11, 2, 2, 0, 3, 0, 14,
    4, 1, 3, 5, 7, 0, 1, 255, 2, 1, 1, 0, 2, 1, 2, 1, 0, 0, 0, 12, 2, 1, 0, 15,
    3, 3, 5, 7, 0, 2, 0, 255, 2, 1, 1, 0, 2, 1, 2, 1, 0, 0, 0, 10, 2, 2, 0, 12, 0, 16,
    2, 0, 8, 0, 17};

/* Case 10: one action makes fluent 0 true where fluent 1 is true, and where it is false; and this action with 13 fluents in one body. */
static const uint8_t case_10[22] = {2, 1, 0, 2, 0, 0, 1, 2, 0, 0, 1, 3, 1, 0, 0, 0, 0, 1, 0, 1, 0, 0};
static const uint8_t thirteen[29] = {13, 1, 0, 1, 0, 0, 13, 0, 2, 4, 6, 8, 10, 12, 14, 16, 18, 20, 22, 24, 1, 0, 0, 0, 0, 1, 0, 0, 0};

/* The index of File A. */
static const uint8_t index_of_a[18] = {0, 1, 0, 18, 2, 0, 7, 0, 10, 1, 0, 20, 1, 0, 14, 1, 0, 23};

/* What the derive call writes for File A without its whether entry, of eleven lines; and seven fluents that one look would show. */
static const uint8_t eleven_lines[196] = {
    0, 11, 4, 0, 3, 5, 7, 0, 0, 4, 0, 3, 5, 7, 1, 0,
    4, 0, 3, 5, 7, 0, 0, 1, 7, 6, 1, 0, 0,
    4, 0, 3, 5, 7, 0, 1, 255, 2, 1, 1, 0, 2, 1, 2, 1, 0, 0, 0, 1, 7, 4, 1, 0, 1,
    4, 1, 3, 5, 7, 0, 1, 1, 4, 1, 2, 5, 7, 2, 0,
    4, 1, 2, 5, 7, 0, 1, 2, 4, 1, 2, 4, 7, 2, 0,
    4, 1, 2, 4, 7, 0, 0, 4, 1, 2, 4, 7, 1, 0,
    4, 1, 2, 4, 7, 0, 0, 1, 7, 6, 1, 0, 5,
    4, 1, 2, 5, 7, 0, 1, 2, 1, 7, 5, 2, 0, 4, 0, 6,
    4, 1, 3, 5, 7, 0, 2, 1, 2, 1, 7, 5, 2, 0, 3, 0, 7,
    4, 1, 3, 5, 7, 0, 1, 255, 2, 1, 1, 0, 2, 1, 2, 1, 0, 0, 0, 1, 7, 4, 1, 0, 8,
    3, 3, 5, 7, 0, 2, 0, 255, 2, 1, 1, 0, 2, 1, 2, 1, 0, 0, 0, 1, 7, 3, 2, 0, 2, 0, 9};
static const uint8_t seven[27] = {7, 1, 0, 0, 1, 0, 0, 7, 0, 0, 0, 1, 0, 2, 0, 3, 0, 4, 0, 5, 0, 6, 0, 1, 0, 0, 0};

/* A traffic light with three colours and an action that looks at it: its colour is known then, and need not be the first. File A with two values for each fluent. */
static const uint8_t light[17] = {1, 3, 1, 0, 0, 1, 0, 0, 1, 0, 0, 0, 1, 0, 0, 1, 0};
static const uint8_t first_colour[18] = {1, 3, 1, 0, 0, 1, 0, 0, 1, 0, 0, 0, 1, 0, 1, 0, 0, 0};
static const uint8_t a_by_values[64] = {4, 2, 2, 2, 2, 3, 3, 1, 1, 2, 2, 3, 1, 3, 1, 1, 0, 0, 1, 3, 0, 1, 0, 0, 2, 2, 0, 0, 3, 0, 0, 1,
                                        1, 1, 2, 2, 1, 1, 0, 1, 0, 0, 0, 2, 0, 255, 2, 1, 0, 1, 0, 2, 1, 2, 1, 0, 0, 0, 0, 1, 3, 2, 1, 2};
static const uint8_t says_is_not[8] = {1, 3, 1, 0, 1, 0, 0, 3};

static uint8_t state[GLINTSTRING_STATE_LENGTH];
static uint8_t room[GLINTSTRING_INDEX_MOST];

static int is(uint64_t answer, unsigned number, unsigned input, unsigned place, unsigned count) {
    return glintstring_number(answer) == number && glintstring_input(answer) == input && glintstring_place(answer) == place &&
           glintstring_count(answer) == count;
}

static int is_plan(const uint32_t *row, unsigned plan, unsigned number, unsigned place, unsigned count, unsigned input) {
    const uint32_t *numbers = row + GLINTSTRING_ROW_NUMBERS * plan;
    return numbers[0] == number && numbers[1] == place && numbers[2] == count && numbers[3] == input;
}

/* As lent: the room from this place on, and the state. */
static int untouched_from(size_t place) {
    size_t i;
    for (i = place; i < sizeof room; i++)
        if (room[i] != 9) return 0;
    for (i = 0; i < sizeof state; i++)
        if (state[i] != 9) return 0;
    return 1;
}
static int untouched(void) { return untouched_from(0); }

/* The four marks, and zeros behind them. */
static int marked(uint8_t m0, uint8_t m1, uint8_t m2, uint8_t m3) {
    size_t f;
    for (f = 4; f < sizeof state; f++)
        if (state[f] != 0) return 0;
    return state[0] == m0 && state[1] == m1 && state[2] == m2 && state[3] == m3;
}

static int known(unsigned number) {
    return number <= 3 || (9 <= number && number <= 22) || (30 <= number && number <= 39) || (43 <= number && number <= 46);
}

/* Each number of the format has words of its own, and every other number the same words. */
static int worded(void) {
    unsigned one, other;
    for (one = 0; one <= 300; one++)
        for (other = 0; other < one; other++) {
            if ((strcmp(glintstring_words(one), glintstring_words(other)) == 0) != (!known(one) && !known(other))) return 0;
        }
    return strcmp(glintstring_words(GLINTSTRING_VERIFIED), "verified") == 0;
}

int main(void) {
    uint8_t other[64];
    uint8_t turned[171];
    uint8_t closing[328];
    uint64_t answer;
    uint8_t file[96];
    uint32_t row[16];
    uint32_t line;
    size_t i;
    memset(state, 9, sizeof state);
    memset(room, 9, sizeof room);

    if (!is(glintstring_judge(file_a, sizeof file_a, state, sizeof state, 100000), GLINTSTRING_VERIFIED, GLINTSTRING_NEITHER, 0, 5) || !untouched())
        return puts("bindings: 1"), 1;
    if (!is(glintstring_judge(file_a, sizeof file_a, state, sizeof state, 4), GLINTSTRING_BUDGET_SPENT, GLINTSTRING_NEITHER, 0, 4) || !untouched())
        return puts("bindings: 2"), 1;
    if (!is(glintstring_judge(file_a, 47, state, sizeof state, 4), GLINTSTRING_INPUT_ENDS, GLINTSTRING_REQUEST, 47, 0) || !untouched())
        return puts("bindings: 3"), 1;
    if (!is(glintstring_judge(NULL, 0, state, sizeof state, 4), GLINTSTRING_INPUT_ENDS, GLINTSTRING_REQUEST, 0, 0) || !untouched())
        return puts("bindings: 4"), 1;
    if (!is(glintstring_judge(file_a, sizeof file_a, NULL, 0, 4), GLINTSTRING_STATE_LENGTH_WRONG, GLINTSTRING_NEITHER, 0, 0) || !untouched())
        return puts("bindings: 5"), 1;
    /* As many bytes as there were when 64 fluents were the most. */
    if (!is(glintstring_judge(file_a, sizeof file_a, state, 64, 4), GLINTSTRING_STATE_LENGTH_WRONG, GLINTSTRING_NEITHER, 0, 0) || !untouched())
        return puts("bindings: 5, with a lent state of 64"), 1;

    /* Case 2: open unseen. */
    memcpy(other, file_a, 29);
    memcpy(other + 29, "\0\1\1\1\7\1\2", 7);
    if (!is(glintstring_judge(other, 36, state, sizeof state, 100000), GLINTSTRING_GOAL_MISSED, GLINTSTRING_REQUEST, 33, 2) ||
        !marked(GLINTSTRING_UNKNOWN, GLINTSTRING_TRUE, GLINTSTRING_FALSE, GLINTSTRING_UNKNOWN))
        return puts("bindings: 6"), 1;

    /* Case 7: the conversion can't be run, and its one line was missing; a branching has none, and neither has any other answer. */
    memcpy(other + 29, "\0\1\2\0\0", 5);
    line = 7;
    if (!is(glintstring_judge_line(other, 34, state, sizeof state, 100000, &line), GLINTSTRING_NOT_EXECUTABLE, GLINTSTRING_REQUEST, 31, 0) ||
        line != 23 || other[line] != 2 || !marked(GLINTSTRING_UNKNOWN, GLINTSTRING_FALSE, GLINTSTRING_FALSE, GLINTSTRING_FALSE))
        return puts("bindings: 20"), 1;
    memcpy(other + 29, "\0\1\377\1\1\0\0\0\0\0", 10);
    if (!is(glintstring_judge_line(other, 39, state, sizeof state, 100000, &line), GLINTSTRING_NOT_EXECUTABLE, GLINTSTRING_REQUEST, 31, 0) || line != 0)
        return puts("bindings: 21"), 1;
    line = 7;
    if (!is(glintstring_judge_line(NULL, 0, NULL, 0, 4, &line), GLINTSTRING_STATE_LENGTH_WRONG, GLINTSTRING_NEITHER, 0, 0) || line != 0)
        return puts("bindings: 22"), 1;

    /* File A guarded by "not hurt" is verified, and by "no new map" it is broken by the conversion, or before that the budget is spent; File A and
       one byte 0 is File A; and each of the two calls takes the other's request for what it is not. */
    memcpy(other, file_a, 48);
    memcpy(other + 48, "\1\7", 2);
    memset(state, 9, sizeof state);
    if (!is(glintstring_judge_guarded(other, 50, state, sizeof state, 100000), GLINTSTRING_VERIFIED, GLINTSTRING_NEITHER, 0, 5) || !untouched())
        return puts("bindings: 28"), 1;
    memcpy(other + 48, "\2\5\7", 3);
    if (!is(glintstring_judge_guarded(other, 51, state, sizeof state, 3), GLINTSTRING_BUDGET_SPENT, GLINTSTRING_NEITHER, 0, 3) || !untouched())
        return puts("bindings: 29"), 1;
    answer = glintstring_judge_guarded(other, 51, state, sizeof state, 4);
    if (!is(answer, GLINTSTRING_GUARD_BROKEN, GLINTSTRING_REQUEST, 49, 4) || glintstring_show(answer, other, 51, NULL, 0) != 49 ||
        !marked(GLINTSTRING_FALSE, GLINTSTRING_TRUE, GLINTSTRING_TRUE, GLINTSTRING_FALSE))
        return puts("bindings: 30"), 1;
    memset(state, 9, sizeof state);
    if (!is(glintstring_judge(other, 51, state, sizeof state, 100000), GLINTSTRING_BYTES_LEFT_OVER, GLINTSTRING_REQUEST, 48, 0) ||
        !is(glintstring_judge_guarded(other, 48, state, sizeof state, 100000), GLINTSTRING_INPUT_ENDS, GLINTSTRING_REQUEST, 48, 0) ||
        !is(glintstring_judge_guarded(other, 51, state, 64, 100000), GLINTSTRING_STATE_LENGTH_WRONG, GLINTSTRING_NEITHER, 0, 0) || !untouched())
        return puts("bindings: 31"), 1;
    other[48] = 0;
    if (!is(glintstring_judge_guarded(other, 49, state, sizeof state, 5), GLINTSTRING_VERIFIED, GLINTSTRING_NEITHER, 0, 5) ||
        !is(glintstring_judge_guarded(other, 49, state, sizeof state, 4), GLINTSTRING_BUDGET_SPENT, GLINTSTRING_NEITHER, 0, 4) || !untouched())
        return puts("bindings: 32"), 1;

    /* Case 10 is verified by cases, where the walk call misses the goal; 13 open fluents are too many, with any budget, and the state is as lent;
       the conversion can't be run by cases either; and a request that is refused is refused alike. */
    memset(state, 9, sizeof state);
    if (!is(glintstring_judge_by_cases(case_10, sizeof case_10, state, sizeof state, 2), GLINTSTRING_VERIFIED, GLINTSTRING_NEITHER, 0, 2) ||
        !is(glintstring_judge_by_cases(case_10, sizeof case_10, state, sizeof state, 1), GLINTSTRING_BUDGET_SPENT, GLINTSTRING_NEITHER, 0, 1) ||
        !is(glintstring_judge_by_cases(file_a, sizeof file_a, state, sizeof state, 5), GLINTSTRING_VERIFIED, GLINTSTRING_NEITHER, 0, 5) || !untouched())
        return puts("bindings: 33"), 1;
    answer = glintstring_judge_by_cases(thirteen, sizeof thirteen, state, sizeof state, 0);
    if (!is(answer, GLINTSTRING_TOO_MANY_CASES, GLINTSTRING_REQUEST, 26, 0) || glintstring_show(answer, thirteen, sizeof thirteen, NULL, 0) != 26 ||
        !untouched())
        return puts("bindings: 34"), 1;
    if (!is(glintstring_judge_by_cases(file_a, 47, state, sizeof state, 5), GLINTSTRING_INPUT_ENDS, GLINTSTRING_REQUEST, 47, 0) ||
        !is(glintstring_judge_by_cases(NULL, 0, state, sizeof state, 5), GLINTSTRING_INPUT_ENDS, GLINTSTRING_REQUEST, 0, 0) ||
        !is(glintstring_judge_by_cases(thirteen, sizeof thirteen, state, 127, 5), GLINTSTRING_STATE_LENGTH_WRONG, GLINTSTRING_NEITHER, 0, 0) ||
        !untouched())
        return puts("bindings: 35"), 1;
    memcpy(other + 29, "\0\1\2\0\0", 5);
    if (!is(glintstring_judge_by_cases(other, 34, state, sizeof state, 5), GLINTSTRING_NOT_EXECUTABLE, GLINTSTRING_REQUEST, 31, 0) ||
        !marked(GLINTSTRING_UNKNOWN, GLINTSTRING_FALSE, GLINTSTRING_FALSE, GLINTSTRING_FALSE))
        return puts("bindings: 36"), 1;
    if (!is(glintstring_judge(case_10, sizeof case_10, state, sizeof state, 2), GLINTSTRING_GOAL_MISSED, GLINTSTRING_REQUEST, 20, 2) ||
        !marked(GLINTSTRING_UNKNOWN, GLINTSTRING_UNKNOWN, 0, 0))
        return puts("bindings: 37"), 1;

    /* The index of File A, in a room that is longer and in one that is just long enough; a room that is a byte short, no room, and a request that is refused,
       which goes before the room, leave all as lent. */
    memset(state, 9, sizeof state);
    if (!is(glintstring_index(file_a, sizeof file_a, room, 17), GLINTSTRING_ROOM_SHORT, GLINTSTRING_NEITHER, 0, 0) ||
        !is(glintstring_index(file_a, sizeof file_a, NULL, 0), GLINTSTRING_ROOM_SHORT, GLINTSTRING_NEITHER, 0, 0) ||
        !is(glintstring_index(file_a, 47, NULL, 0), GLINTSTRING_INPUT_ENDS, GLINTSTRING_REQUEST, 47, 0) ||
        !is(glintstring_index(NULL, 0, room, sizeof room), GLINTSTRING_INPUT_ENDS, GLINTSTRING_REQUEST, 0, 0) || !untouched())
        return puts("bindings: 38"), 1;
    if (!is(glintstring_index(file_a, sizeof file_a, room, sizeof room), GLINTSTRING_INDEXED, GLINTSTRING_NEITHER, 0, sizeof index_of_a) ||
        memcmp(room, index_of_a, sizeof index_of_a) != 0 || !untouched_from(sizeof index_of_a))
        return puts("bindings: 39"), 1;
    memset(room, 9, sizeof room);
    if (!is(glintstring_index(file_a, sizeof file_a, room, sizeof index_of_a), GLINTSTRING_INDEXED, GLINTSTRING_NEITHER, 0, sizeof index_of_a) ||
        memcmp(room, index_of_a, sizeof index_of_a) != 0 || !untouched_from(sizeof index_of_a))
        return puts("bindings: 40"), 1;

    /* By its index File A is answered as by the walk call. By another one, also with no budget, the first difference is told, of which nothing is shown; what the
       request lacks, and the length of the state, go before it; and the conversion can't be run by it either. */
    if (!is(glintstring_judge_indexed(file_a, sizeof file_a, room, 18, state, sizeof state, 5), GLINTSTRING_VERIFIED, GLINTSTRING_NEITHER, 0, 5) ||
        !is(glintstring_judge_indexed(file_a, sizeof file_a, room, 18, state, sizeof state, 4), GLINTSTRING_BUDGET_SPENT, GLINTSTRING_NEITHER, 0, 4) ||
        !untouched_from(18))
        return puts("bindings: 41"), 1;
    answer = glintstring_judge_indexed(file_a, sizeof file_a, room, 17, state, sizeof state, 0);
    if (!is(answer, GLINTSTRING_INDEX_DIFFERS, GLINTSTRING_INDEX, 17, 0) || glintstring_show(answer, file_a, sizeof file_a, room, sizeof room) != 0 ||
        !is(glintstring_judge_indexed(file_a, sizeof file_a, room, 19, state, sizeof state, 5), GLINTSTRING_INDEX_DIFFERS, GLINTSTRING_INDEX, 18, 0) ||
        !is(glintstring_judge_indexed(file_a, sizeof file_a, NULL, 0, state, sizeof state, 5), GLINTSTRING_INDEX_DIFFERS, GLINTSTRING_INDEX, 0, 0) ||
        !untouched_from(18))
        return puts("bindings: 42"), 1;
    if (!is(glintstring_judge_indexed(file_a, 47, NULL, 0, state, sizeof state, 5), GLINTSTRING_INPUT_ENDS, GLINTSTRING_REQUEST, 47, 0) ||
        !is(glintstring_judge_indexed(file_a, 47, NULL, 0, state, 127, 5), GLINTSTRING_STATE_LENGTH_WRONG, GLINTSTRING_NEITHER, 0, 0) || !untouched_from(18))
        return puts("bindings: 43"), 1;
    if (!is(glintstring_judge_indexed(other, 34, room, 18, state, sizeof state, 5), GLINTSTRING_NOT_EXECUTABLE, GLINTSTRING_REQUEST, 31, 0) ||
        !marked(GLINTSTRING_UNKNOWN, GLINTSTRING_FALSE, GLINTSTRING_FALSE, GLINTSTRING_FALSE))
        return puts("bindings: 44"), 1;

    /* By values the light is verified, and where the first colour is the goal the state has value 1, the first that misses; an effect that says "is not" and what
       ends too soon leave all as lent; and File A by values is answered as File A is, with the same state where it opens unseen. */
    memset(state, 9, sizeof state);
    if (!is(glintstring_judge_values(light, sizeof light, state, sizeof state, 4), GLINTSTRING_VERIFIED, GLINTSTRING_NEITHER, 0, 4) ||
        !is(glintstring_judge_values(light, sizeof light, state, sizeof state, 3), GLINTSTRING_BUDGET_SPENT, GLINTSTRING_NEITHER, 0, 3) ||
        !is(glintstring_judge_values(light, 16, state, sizeof state, 4), GLINTSTRING_INPUT_ENDS, GLINTSTRING_REQUEST, 16, 0) ||
        !is(glintstring_judge_values(NULL, 0, state, sizeof state, 4), GLINTSTRING_INPUT_ENDS, GLINTSTRING_REQUEST, 0, 0) ||
        !is(glintstring_judge_values(light, sizeof light, state, 127, 4), GLINTSTRING_STATE_LENGTH_WRONG, GLINTSTRING_NEITHER, 0, 0) ||
        !is(glintstring_judge_values(a_by_values, sizeof a_by_values, state, sizeof state, 5), GLINTSTRING_VERIFIED, GLINTSTRING_NEITHER, 0, 5) ||
        !untouched_from(18))
        return puts("bindings: 53"), 1;
    answer = glintstring_judge_values(says_is_not, sizeof says_is_not, state, sizeof state, 0);
    if (!is(answer, GLINTSTRING_SAYS_IS_NOT, GLINTSTRING_REQUEST, 6, 0) || glintstring_show(answer, says_is_not, sizeof says_is_not, NULL, 0) != 6 ||
        !untouched_from(18))
        return puts("bindings: 54"), 1;
    answer = glintstring_judge_values(first_colour, sizeof first_colour, state, sizeof state, 4);
    if (!is(answer, GLINTSTRING_GOAL_MISSED, GLINTSTRING_REQUEST, 15, 4) || glintstring_show(answer, first_colour, sizeof first_colour, NULL, 0) != 15 ||
        !marked(1 + 1, 0, 0, 0))
        return puts("bindings: 55"), 1;
    memcpy(other, a_by_values, 42);
    memcpy(other + 42, "\0\1\1\1\3\2\1\2", 8);
    if (!is(glintstring_judge_values(other, 50, state, sizeof state, 5), GLINTSTRING_GOAL_MISSED, GLINTSTRING_REQUEST, 46, 2) ||
        !marked(GLINTSTRING_UNKNOWN, 0 + 1, 1 + 1, GLINTSTRING_UNKNOWN))
        return puts("bindings: 56"), 1;

    /* The derivation of File A without its whether entry, in a room that is longer and in one that is just long enough, with just enough budget; the derivation
       call accepts it. A room that is a byte short, no room, and what goes before the room leave all as lent: too small a budget, a whether entry, a goal that is
       missed, an action that can't be run, seven readings at once, and a request that is refused. */
    memset(state, 9, sizeof state);
    memset(room, 9, sizeof room);
    memcpy(other, file_a, 46);
    other[46] = 0;
    if (!is(glintstring_derive(other, 47, room, 195, 5), GLINTSTRING_ROOM_SHORT, GLINTSTRING_NEITHER, 0, 0) ||
        !is(glintstring_derive(other, 47, NULL, 0, 5), GLINTSTRING_ROOM_SHORT, GLINTSTRING_NEITHER, 0, 0) ||
        !is(glintstring_derive(other, 47, NULL, 0, 4), GLINTSTRING_BUDGET_SPENT, GLINTSTRING_NEITHER, 0, 4) ||
        !is(glintstring_derive(other, 46, room, sizeof room, 5), GLINTSTRING_INPUT_ENDS, GLINTSTRING_REQUEST, 46, 0) ||
        !is(glintstring_derive(NULL, 0, room, sizeof room, 5), GLINTSTRING_INPUT_ENDS, GLINTSTRING_REQUEST, 0, 0) || !untouched())
        return puts("bindings: 45"), 1;
    answer = glintstring_derive(file_a, sizeof file_a, room, sizeof room, 0);
    if (!is(answer, GLINTSTRING_WHETHER_ASKED, GLINTSTRING_REQUEST, 46, 0) || glintstring_show(answer, file_a, sizeof file_a, NULL, 0) != 46 || !untouched())
        return puts("bindings: 46"), 1;
    answer = glintstring_derive(seven, sizeof seven, room, sizeof room, 129);
    if (!is(answer, GLINTSTRING_SENSING_TOO_WIDE, GLINTSTRING_REQUEST, 24, 0) || glintstring_show(answer, seven, sizeof seven, NULL, 0) != 24 ||
        !is(glintstring_derive(seven, sizeof seven, room, sizeof room, 128), GLINTSTRING_BUDGET_SPENT, GLINTSTRING_NEITHER, 0, 128) || !untouched())
        return puts("bindings: 47"), 1;
    if (!is(glintstring_derive(other, 47, room, sizeof room, 5), GLINTSTRING_DERIVED, GLINTSTRING_NEITHER, 0, sizeof eleven_lines) ||
        memcmp(room, eleven_lines, sizeof eleven_lines) != 0 || !untouched_from(sizeof eleven_lines))
        return puts("bindings: 48"), 1;
    if (!is(glintstring_check(other, 47, room, sizeof eleven_lines), GLINTSTRING_ACCEPTED, GLINTSTRING_NEITHER, 0, 0) ||
        !is(glintstring_check(other, 47, room, sizeof eleven_lines - 1), GLINTSTRING_INPUT_ENDS, GLINTSTRING_DERIVATION, sizeof eleven_lines - 1, 0))
        return puts("bindings: 49"), 1;
    memset(room, 9, sizeof room);
    if (!is(glintstring_derive(other, 47, room, sizeof eleven_lines, 5), GLINTSTRING_DERIVED, GLINTSTRING_NEITHER, 0, sizeof eleven_lines) ||
        memcmp(room, eleven_lines, sizeof eleven_lines) != 0 || !untouched_from(sizeof eleven_lines))
        return puts("bindings: 50"), 1;
    memset(room, 9, sizeof room);
    memcpy(other + 29, "\0\1\1\1\7\0", 6);
    if (!is(glintstring_derive(other, 35, room, sizeof room, 100000), GLINTSTRING_GOAL_MISSED, GLINTSTRING_REQUEST, 33, 2) || !untouched())
        return puts("bindings: 51"), 1;
    memcpy(other + 29, "\0\1\2\0\0", 5);
    if (!is(glintstring_derive(other, 34, room, sizeof room, 100000), GLINTSTRING_NOT_EXECUTABLE, GLINTSTRING_REQUEST, 31, 0) || !untouched())
        return puts("bindings: 52"), 1;

    /* A release of four plans: File A's own, open unseen, an action that there is not, and one that is not reached. */
    memcpy(file, file_a, 29);
    file[29] = 4;
    memcpy(file + 30, file_a + 29, 19);
    memcpy(file + 49, "\0\1\1\1\7\1\2", 7);
    memcpy(file + 56, "\0\1\3\0\0", 5);
    memset(row, 9, sizeof row);
    if (glintstring_plans(file, 61) != 4 || glintstring_plans(file, 29) != 0 || glintstring_plans(NULL, 0) != 0)
        return puts("bindings: 23"), 1;
    if (!is(glintstring_release(file, 61, row, 16, 100000), GLINTSTRING_ANSWERED, GLINTSTRING_NEITHER, 0, 0) ||
        !is_plan(row, 0, GLINTSTRING_VERIFIED, 0, 5, GLINTSTRING_NEITHER) || !is_plan(row, 1, GLINTSTRING_GOAL_MISSED, 53, 2, GLINTSTRING_REQUEST) ||
        !is_plan(row, 2, GLINTSTRING_TOO_LARGE, 58, 0, GLINTSTRING_REQUEST) || !is_plan(row, 3, GLINTSTRING_NOT_REACHED, 0, 0, GLINTSTRING_NEITHER))
        return puts("bindings: 24"), 1;
    /* Each plan has the whole budget; and what is not answered by 0 leaves the row: three numbers too many, the table cut short, a byte left over. */
    file[29] = 2;
    memset(row, 9, sizeof row);
    if (!is(glintstring_release(file, 56, row, 8, 2), GLINTSTRING_ANSWERED, GLINTSTRING_NEITHER, 0, 0) ||
        !is_plan(row, 0, GLINTSTRING_BUDGET_SPENT, 0, 2, GLINTSTRING_NEITHER) || !is_plan(row, 1, GLINTSTRING_GOAL_MISSED, 53, 2, GLINTSTRING_REQUEST))
        return puts("bindings: 25"), 1;
    memset(row, 9, sizeof row);
    if (!is(glintstring_release(file, 56, row, 11, 100000), GLINTSTRING_ROW_LENGTH_WRONG, GLINTSTRING_NEITHER, 0, 0) ||
        !is(glintstring_release(file, 28, row, 8, 100000), GLINTSTRING_INPUT_ENDS, GLINTSTRING_REQUEST, 28, 0) ||
        !is(glintstring_release(file, 57, row, 8, 100000), GLINTSTRING_BYTES_LEFT_OVER, GLINTSTRING_REQUEST, 56, 0) ||
        !is(glintstring_release(NULL, 0, NULL, 0, 4), GLINTSTRING_INPUT_ENDS, GLINTSTRING_REQUEST, 0, 0))
        return puts("bindings: 26"), 1;
    for (i = 0; i < 16; i++)
        if (row[i] != 0x09090909) return puts("bindings: 27"), 1;

    /* Case 14: File A without its whether entry, and its derivation. */
    memcpy(other, file_a, 46);
    other[46] = 0;
    answer = glintstring_check(other, 47, nine_lines, sizeof nine_lines);
    if (!is(answer, GLINTSTRING_ACCEPTED, GLINTSTRING_NEITHER, 0, 0) || glintstring_show(answer, other, 47, nine_lines, sizeof nine_lines) != 0)
        return puts("bindings: 7"), 1;
    answer = glintstring_check(file_a, sizeof file_a, nine_lines, sizeof nine_lines);
    if (!is(answer, GLINTSTRING_WHETHER_ASKED, GLINTSTRING_REQUEST, 46, 0) ||
        glintstring_show(answer, file_a, sizeof file_a, nine_lines, sizeof nine_lines) != 46)
        return puts("bindings: 8"), 1;

    /* The last line cites the two in the other order. */
    memcpy(turned, nine_lines, sizeof turned);
    turned[168] = 7;
    turned[170] = 2;
    answer = glintstring_check(other, 47, turned, sizeof turned);
    if (!is(answer, GLINTSTRING_DOES_NOT_FOLLOW, GLINTSTRING_DERIVATION, 144, 0) ||
        glintstring_show(answer, other, 47, turned, sizeof turned) != 144 || glintstring_show(answer, other, 47, turned, 100) != 100)
        return puts("bindings: 9"), 1;
    answer = glintstring_check(other, 47, NULL, 0);
    if (!is(answer, GLINTSTRING_INPUT_ENDS, GLINTSTRING_DERIVATION, 0, 0) || glintstring_show(answer, NULL, 0, NULL, 0) != 0)
        return puts("bindings: 10"), 1;

    /* File A as it is. */
    memcpy(closing, eighteen_lines, sizeof closing);
    answer = glintstring_check_whether(file_a, sizeof file_a, closing, sizeof closing);
    if (!is(answer, GLINTSTRING_ACCEPTED, GLINTSTRING_NEITHER, 0, 0) || glintstring_show(answer, file_a, sizeof file_a, closing, sizeof closing) != 0)
        return puts("bindings: 11"), 1;
    if (!is(glintstring_check(file_a, sizeof file_a, closing, sizeof closing), GLINTSTRING_WHETHER_ASKED, GLINTSTRING_REQUEST, 46, 0))
        return puts("bindings: 12"), 1;

    /* The closing list names line 8 twice; its count says one entry; it ends within the last. */
    closing[327] = 8;
    answer = glintstring_check_whether(file_a, sizeof file_a, closing, sizeof closing);
    if (!is(answer, GLINTSTRING_CLOSING_NOT_RIGHT, GLINTSTRING_DERIVATION, 326, 0) ||
        glintstring_show(answer, file_a, sizeof file_a, closing, sizeof closing) != 326)
        return puts("bindings: 13"), 1;
    closing[323] = 1;
    if (!is(glintstring_check_whether(file_a, sizeof file_a, closing, 326), GLINTSTRING_CLOSING_NOT_RIGHT, GLINTSTRING_DERIVATION, 323, 0))
        return puts("bindings: 14"), 1;
    if (!is(glintstring_check_whether(file_a, sizeof file_a, eighteen_lines, 327), GLINTSTRING_INPUT_ENDS, GLINTSTRING_DERIVATION, 327, 0))
        return puts("bindings: 15"), 1;

    /* Rule 9 there is none; by rule 7 no fluent is known that the action does not look at; a fluent is too large. */
    memcpy(closing, eighteen_lines, sizeof closing);
    closing[178] = 9;
    if (!is(glintstring_check_whether(file_a, sizeof file_a, closing, sizeof closing), GLINTSTRING_NO_RULE, GLINTSTRING_DERIVATION, 171, 0))
        return puts("bindings: 16"), 1;
    closing[178] = 7;
    closing[179] = 1;
    if (!is(glintstring_check_whether(file_a, sizeof file_a, closing, sizeof closing), GLINTSTRING_DOES_NOT_FOLLOW, GLINTSTRING_DERIVATION, 171, 0))
        return puts("bindings: 17"), 1;
    closing[179] = 4;
    if (!is(glintstring_check_whether(file_a, sizeof file_a, closing, sizeof closing), GLINTSTRING_TOO_LARGE, GLINTSTRING_DERIVATION, 179, 0))
        return puts("bindings: 18"), 1;
    if (!is(glintstring_check_whether(file_a, sizeof file_a, NULL, 0), GLINTSTRING_INPUT_ENDS, GLINTSTRING_DERIVATION, 0, 0) ||
        !is(glintstring_check_whether(NULL, 0, NULL, 0), GLINTSTRING_INPUT_ENDS, GLINTSTRING_REQUEST, 0, 0))
        return puts("bindings: 19"), 1;

    if (!worded())
        return puts("bindings: words"), 1;

    puts("bindings: 87 calls as the format says, and what is shown of their answers");
    return 0;
}
