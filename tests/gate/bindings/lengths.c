/*
 * Each exported call at the ends of its lengths, by way of include/glintstring.h: 0, 1, the limit and one more for an input, null where the
 * length is 0, lent states of every length from 0 to 258, lent rows of every length from 0 to 260 and lent rooms of every length from 0 to 1,278 for an index and
 * of some lengths up to 65,536 for a derivation. Each input ends where a page ends behind which nothing may be read or written, or starts where such a page ends,
 * and inputs may not be written at all: a call that goes astray ends the program by a signal.
 * It is compiled as C99 and as C++, and prints the first call that is not as it should be.
 */
#define _DEFAULT_SOURCE
#include <glintstring.h>
#include <stdio.h>
#include <string.h>
#include <sys/mman.h>

#define ROOM 65536 /* a multiple of every page's size */
#define STATES (2 * GLINTSTRING_STATE_LENGTH + 2)
#define ROWS (GLINTSTRING_ROW_NUMBERS * GLINTSTRING_MOST_PLANS + 4)
#define ROOMS (GLINTSTRING_INDEX_MOST + 2)
#define LENT 9

static unsigned long calls;

/* So many bytes between two stretches of memory that nobody may touch. */
static uint8_t *stretch(void) {
    uint8_t *all = (uint8_t *)mmap(NULL, 3 * ROOM, PROT_NONE, MAP_PRIVATE | MAP_ANONYMOUS, -1, 0);
    if (all == (uint8_t *)MAP_FAILED || mprotect(all + ROOM, ROOM, PROT_READ | PROT_WRITE) != 0) {
        perror("lengths: mmap");
        return NULL;
    }
    return all + ROOM;
}

/* Puts bytes at the start or at the end of a stretch, and shuts it to writers. */
static const uint8_t *put(uint8_t *where, const uint8_t *bytes, size_t length, int at_end) {
    uint8_t *start = at_end ? where + ROOM - length : where;
    mprotect(where, ROOM, PROT_READ | PROT_WRITE);
    memcpy(start, bytes, length);
    mprotect(where, ROOM, PROT_READ);
    return start;
}

static int is(uint64_t answer, unsigned number, unsigned input, unsigned place, unsigned count) {
    calls++;
    if (glintstring_number(answer) == number && glintstring_input(answer) == input && glintstring_place(answer) == place &&
        glintstring_count(answer) == count)
        return 1;
    printf("lengths: number %u, input %u, place %u, count %lu; expected %u, %u, %u, %u\n", glintstring_number(answer),
           glintstring_input(answer), glintstring_place(answer), (unsigned long)glintstring_count(answer), number, input, place, count);
    return 0;
}

/* A list of the literals 0, 2, 4 and so on. */
static uint8_t *list(uint8_t *to, unsigned count) {
    unsigned i;
    *to++ = (uint8_t)count;
    for (i = 0; i < count; i++)
        *to++ = (uint8_t)(2 * i);
    return to;
}

/*
 * A request of 16,384 bytes: 128 fluents, 255 effects and 255 executability lines of one action, each with 16 literals; a plan of 45
 * branchings, each of eight branches with conditions of 16 literals that are told apart by the last three, and of nine actions.
 * Nothing is known, so the first branching can't be run: 2, at the place that is stored.
 */
static void largest_request(uint8_t *to, unsigned *place) {
    const uint8_t *const start = to;
    unsigned i, branch, bit;
    *to++ = 128;
    *to++ = 1;
    *to++ = 0;
    *to++ = 255;
    for (i = 0; i < 255; i++) {
        *to++ = 0;
        *to++ = 254;
        to = list(to, 16);
    }
    *to++ = 255;
    for (i = 0; i < 255; i++) {
        *to++ = 0;
        to = list(to, 16);
    }
    *to++ = 0;
    *to++ = 0;
    *to++ = 45 + 9;
    *place = (unsigned)(to - start);
    for (i = 0; i < 45; i++) {
        *to++ = 255;
        *to++ = 8;
        for (branch = 0; branch < 8; branch++) {
            to = list(to, 16);
            for (bit = 0; bit < 3; bit++)
                to[(int)bit - 3] = (uint8_t)(to[(int)bit - 3] + (branch >> bit & 1));
            *to++ = 0;
            *to++ = 0;
        }
    }
    memset(to, 0, 9 + 2);
    to += 9 + 2;
    if (to - start != GLINTSTRING_REQUEST_LIMIT)
        puts("lengths: the largest request has another length");
}

/* A list of literals by values: fluent 0 is 0, fluent 1 is 0, fluent 2 is 0 and so on. */
static uint8_t *value_list(uint8_t *to, unsigned count) {
    unsigned i;
    *to++ = (uint8_t)count;
    for (i = 0; i < count; i++) {
        *to++ = (uint8_t)i;
        *to++ = 0;
    }
    return to;
}

/*
 * The same by values, of which each of the 128 fluents has 16: 255 effects and 100 executability lines of one action, each with 16 literals, and a plan of 13
 * branchings. The first of these can't be run: 2, at the place that is stored, as is that of the last effect's literal.
 */
static void largest_values_request(uint8_t *to, unsigned *place, unsigned *effect) {
    const uint8_t *const start = to;
    unsigned i, branch, bit;
    *to++ = 128;
    memset(to, GLINTSTRING_MOST_VALUES, 128);
    to += 128;
    *to++ = 1;
    *to++ = 0;
    *to++ = 255;
    for (i = 0; i < 255; i++) {
        *to++ = 0;
        *effect = (unsigned)(to - start);
        *to++ = 127;
        *to++ = 0;
        to = value_list(to, 16);
    }
    *to++ = 100;
    for (i = 0; i < 100; i++) {
        *to++ = 0;
        to = value_list(to, 16);
    }
    *to++ = 0;
    *to++ = 0;
    *to++ = 13;
    *place = (unsigned)(to - start);
    for (i = 0; i < 13; i++) {
        *to++ = 255;
        *to++ = 8;
        for (branch = 0; branch < 8; branch++) {
            to = value_list(to, 16);
            for (bit = 0; bit < 3; bit++)
                to[2 * (int)bit - 5] = (uint8_t)(2 * (branch >> bit & 1));
            *to++ = 0;
            *to++ = 0;
        }
    }
    *to++ = 0;
    *to++ = 0;
    if (to - start != GLINTSTRING_REQUEST_LIMIT)
        puts("lengths: the largest values request has another length");
}

/* One fluent more than there are facts, 13 facts of which the first are goals, so many, and the empty plan. */
static size_t derived_request(uint8_t *to, unsigned goals) {
    uint8_t *end = to;
    *end++ = 14;
    *end++ = 1;
    end = list(end, 13);
    memset(end, 0, 5);
    end = list(end + 5, goals);
    *end++ = 0;
    return (size_t)(end - to);
}

/* A rule byte and a list, in the order of the layout. */
static uint8_t *concluded(uint8_t *to, int closing, uint8_t rule, unsigned count) {
    if (closing)
        *to++ = rule;
    to = list(to, count);
    if (!closing)
        *to++ = rule;
    return to;
}

/* 1,024 lines that derive it, of 32,768 bytes: for nine goals, or in the closing layout for six, with a closing list that names the last. */
static void largest_derivation(uint8_t *to, int closing) {
    static const uint8_t start[2] = {4, 0}, plan[2] = {0, 0}, cited[3] = {1, 3, 254}, end[3] = {1, 3, 255};
    const uint8_t *const first = to;
    unsigned line;
    memcpy(to, start, 2);
    to += 2;
    for (line = 0; line < 1023; line++) {
        to = list(to, 13);
        memcpy(to, plan, 2);
        to = concluded(to + 2, closing, 1, 13);
        *to++ = 0;
    }
    to = list(to, 13);
    memcpy(to, plan, 2);
    to = concluded(to + 2, closing, 6, closing ? 6 : 9);
    memcpy(to, cited, 3);
    to += 3;
    if (closing) {
        memcpy(to, end, 3);
        to += 3;
    }
    if (to - first != GLINTSTRING_DERIVATION_LIMIT)
        puts("lengths: the largest derivation has another length");
}

static uint8_t request[GLINTSTRING_REQUEST_LIMIT + 1], derivation[GLINTSTRING_DERIVATION_LIMIT + 1];
static uint8_t *request_room, *derivation_room, *state_room, *line_room;
static uint8_t as_lent[ROOM];

/* The walk call with the line, which is written where the memory that may be written starts or ends, gives the same and the line 0: what stops
   the largest request is a branching. */
static int same_with_line(uint64_t answer, const uint8_t *bytes, size_t length, uint8_t *state, size_t lent, int at_end) {
    uint32_t *line = (uint32_t *)(void *)(at_end ? line_room + ROOM - sizeof(uint32_t) : line_room);
    calls++;
    memset(line_room, LENT, ROOM);
    if (glintstring_judge_line(bytes, length, state, lent, 7, line) != answer || *line != 0) return 0;
    memset(line, LENT, sizeof *line);
    return memcmp(line_room, as_lent, ROOM) == 0;
}

/* What is lent, and what is around it, is as it was. */
static int kept(const char *what, size_t lent) {
    if (memcmp(state_room, as_lent, ROOM) == 0)
        return 1;
    printf("lengths: a byte of %s of length %lu, or around it, was changed\n", what, (unsigned long)lent);
    return 0;
}

/* Asks a call of these bytes, with all that it may be lent; the answer has this number and this place, but for what was lent. */
typedef int (*asking)(const uint8_t *bytes, size_t length, unsigned number, unsigned place);

/* Asks of one byte, of as many as there may be, which get this number at this place, and of one more, at the start and at the end of a stretch; and of no
   byte, at null and at an address where nothing may be read. */
static int asked(asking ask, const uint8_t *largest, unsigned number, unsigned place) {
    int at_end;
    for (at_end = 0; at_end <= 1; at_end++) {
        const uint8_t zero = 0, one = 1;
        if (!ask(put(request_room, &zero, 1, at_end), 1, GLINTSTRING_COUNT_NOT_WITHIN_LIMITS, 0) ||
            !ask(put(request_room, &one, 1, at_end), 1, GLINTSTRING_INPUT_ENDS, 1) ||
            !ask(put(request_room, largest, GLINTSTRING_REQUEST_LIMIT, at_end), GLINTSTRING_REQUEST_LIMIT, number, place) ||
            !ask(put(request_room, largest, GLINTSTRING_REQUEST_LIMIT + 1, at_end), GLINTSTRING_REQUEST_LIMIT + 1, GLINTSTRING_TOO_LONG, 0))
            return 0;
    }
    return ask(NULL, 0, GLINTSTRING_INPUT_ENDS, 0) && ask(request_room - 1, 0, GLINTSTRING_INPUT_ENDS, 0);
}

/* The walk call, the guarded call, the call by cases, the values call, or the indexed call by an index. */
typedef uint64_t (*walk_call)(const uint8_t *, size_t, uint8_t *, size_t, uint32_t);
static walk_call walk;

/* That call on these bytes, with count 0, and with lent states of every length: 9 for all but one, and 2 or 43 alone writes the state, in which nothing is
   known. */
static int walks(const uint8_t *bytes, size_t length, unsigned number, unsigned place) {
    const int stops = number == GLINTSTRING_NOT_EXECUTABLE || number == GLINTSTRING_GUARD_BROKEN;
    const unsigned named = number == GLINTSTRING_INDEX_DIFFERS ? GLINTSTRING_INDEX : GLINTSTRING_REQUEST;
    size_t lent, i;
    int at_end;
    for (lent = 0; lent <= STATES; lent++)
        for (at_end = 0; at_end <= 1; at_end++) {
            const int written = stops && lent == GLINTSTRING_STATE_LENGTH;
            uint8_t *state = at_end ? state_room + ROOM - lent : state_room;
            uint64_t answer;
            memset(state_room, LENT, ROOM);
            answer = walk(bytes, length, lent == 0 && at_end ? NULL : state, lent, 7);
            if (!(lent == GLINTSTRING_STATE_LENGTH ? is(answer, number, named, place, 0)
                                                   : is(answer, GLINTSTRING_STATE_LENGTH_WRONG, GLINTSTRING_NEITHER, 0, 0)))
                return printf("lengths: a request of %lu bytes, %lu lent\n", (unsigned long)length, (unsigned long)lent), 0;
            if (walk == glintstring_judge) {
                if (written)
                    memset(state, LENT, lent);
                if (!same_with_line(answer, bytes, length, lent == 0 && at_end ? NULL : state, lent, at_end))
                    return printf("lengths: with the line, a request of %lu bytes, %lu lent\n", (unsigned long)length, (unsigned long)lent), 0;
            }
            if (written) {
                for (i = 0; i < lent; i++)
                    if (state[i] != GLINTSTRING_UNKNOWN) return printf("lengths: fluent %lu is known\n", (unsigned long)i), 0;
                memset(state, LENT, lent);
            }
            if (!kept("a state", lent)) return 0;
        }
    return 1;
}

/* What such a call is asked, with a request that has as many bytes as there may be and stops the walk by this number. */
static int walked(walk_call call, const uint8_t *largest, unsigned number, unsigned place) {
    walk = call;
    return asked(walks, largest, number, place);
}

static int judged(void) {
    unsigned place = 0;
    largest_request(request, &place);
    return walked(glintstring_judge, request, GLINTSTRING_NOT_EXECUTABLE, place);
}

/* The largest guarded request is the largest request with its last two actions left out, and a guard, which the first state lacks. */
static int guarded(void) {
    static uint8_t bytes[GLINTSTRING_REQUEST_LIMIT + 1];
    unsigned place = 0;
    largest_request(request, &place);
    memcpy(bytes, request, GLINTSTRING_REQUEST_LIMIT);
    bytes[place - 1] = (uint8_t)(bytes[place - 1] - 2);
    bytes[GLINTSTRING_REQUEST_LIMIT - 2] = 1;
    bytes[GLINTSTRING_REQUEST_LIMIT - 1] = 255;
    return walked(glintstring_judge_guarded, bytes, GLINTSTRING_GUARD_BROKEN, GLINTSTRING_REQUEST_LIMIT - 1);
}

/* By cases: the largest request as it is, which stops as in the walk call, and with its last action put first, which has 16 open fluents where it is met. */
static int by_cases(void) {
    static uint8_t bytes[GLINTSTRING_REQUEST_LIMIT + 1];
    unsigned place = 0;
    largest_request(request, &place);
    memcpy(bytes, request, GLINTSTRING_REQUEST_LIMIT);
    memmove(bytes + place + 1, request + place, GLINTSTRING_REQUEST_LIMIT - 1 - place);
    bytes[place] = 0;
    return walked(glintstring_judge_by_cases, request, GLINTSTRING_NOT_EXECUTABLE, place) &&
           walked(glintstring_judge_by_cases, bytes, GLINTSTRING_TOO_MANY_CASES, place);
}

/* By values: the largest values request, which stops at its first branching, and with an effect that says "is not". */
static int by_values(void) {
    static uint8_t bytes[GLINTSTRING_REQUEST_LIMIT + 1];
    unsigned place = 0, effect = 0;
    largest_values_request(bytes, &place, &effect);
    if (!walked(glintstring_judge_values, bytes, GLINTSTRING_NOT_EXECUTABLE, place))
        return 0;
    bytes[effect + 1] = 31;
    return walked(glintstring_judge_values, bytes, GLINTSTRING_SAYS_IS_NOT, effect);
}

/* The index of the largest request where that has 128 actions, which is as long as any: all lines are those of action 0. */
static void longest_index(uint8_t *to) {
    const unsigned first[2] = {4, 4 + 255 * 19 + 1}, length[2] = {19, 18};
    unsigned part, line;
    memset(to, 0, GLINTSTRING_INDEX_MOST);
    for (part = 0; part < 2; part++) {
        *to++ = 255;
        for (line = 0; line < 255; line++) {
            *to++ = (uint8_t)((first[part] + line * length[part]) >> 8);
            *to++ = (uint8_t)(first[part] + line * length[part]);
        }
    }
}

/* An index and, behind it, bytes that are none of it. */
static uint8_t whole_index[ROOM];

/* The index call on these bytes, with rooms of every length. The answer is that of the request; where that is 0, a room that is shorter than the index is
   answered by 39, and every other one starts with the index. */
static int builds(const uint8_t *bytes, size_t length, unsigned number, unsigned place) {
    size_t lent;
    int at_end;
    for (lent = 0; lent <= ROOMS; lent++)
        for (at_end = 0; at_end <= 1; at_end++) {
            uint8_t *room = at_end ? state_room + ROOM - lent : state_room;
            uint64_t answer;
            memset(state_room, LENT, ROOM);
            answer = glintstring_index(bytes, length, lent == 0 && at_end ? NULL : room, lent);
            if (!(number != GLINTSTRING_INDEXED   ? is(answer, number, GLINTSTRING_REQUEST, place, 0)
                  : lent < GLINTSTRING_INDEX_MOST ? is(answer, GLINTSTRING_ROOM_SHORT, GLINTSTRING_NEITHER, 0, 0)
                                                  : is(answer, number, GLINTSTRING_NEITHER, 0, GLINTSTRING_INDEX_MOST)))
                return printf("lengths: a request of %lu bytes, a room of %lu\n", (unsigned long)length, (unsigned long)lent), 0;
            if (glintstring_number(answer) == GLINTSTRING_INDEXED) {
                if (memcmp(room, whole_index, GLINTSTRING_INDEX_MOST) != 0) return puts("lengths: the longest index is another"), 0;
                memset(room, LENT, GLINTSTRING_INDEX_MOST);
            }
            if (!kept("a room", lent)) return 0;
        }
    return 1;
}

/* The indexed call by so many bytes of it, at the start or at the end of a stretch, or at null. */
static const uint8_t *given_index;
static size_t given_length;
static uint64_t judge_by_index(const uint8_t *bytes, size_t length, uint8_t *state, size_t state_length, uint32_t budget) {
    return glintstring_judge_indexed(bytes, length, given_index, given_length, state, state_length, budget);
}

/* The largest request with 128 actions has the longest index, and stops as in the walk call. By an index of another length it is answered by 45, at the end of
   the shorter one. */
static int indexed(void) {
    static const size_t lengths[] = {0, 1, GLINTSTRING_INDEX_MOST - 1, GLINTSTRING_INDEX_MOST, GLINTSTRING_INDEX_MOST + 1, ROOM};
    unsigned place = 0;
    size_t i;
    int at_end;
    largest_request(request, &place);
    request[1] = 128;
    longest_index(whole_index);
    if (!asked(builds, request, GLINTSTRING_INDEXED, 0))
        return 0;
    for (i = 0; i < sizeof lengths / sizeof *lengths; i++)
        for (at_end = 0; at_end <= 1; at_end++) {
            const size_t end = lengths[i] < GLINTSTRING_INDEX_MOST ? lengths[i] : GLINTSTRING_INDEX_MOST;
            given_length = lengths[i];
            given_index = given_length == 0 && at_end ? NULL : put(derivation_room, whole_index, given_length, at_end);
            if (!(given_length == GLINTSTRING_INDEX_MOST ? walked(judge_by_index, request, GLINTSTRING_NOT_EXECUTABLE, place)
                                                         : walked(judge_by_index, request, GLINTSTRING_INDEX_DIFFERS, (unsigned)end)))
                return printf("lengths: by an index of %lu bytes\n", (unsigned long)given_length), 0;
        }
    return 1;
}

/* The derivation that is to be written, and its length. */
static size_t derived_length;

/*
 * A request of 16,384 bytes that has a derivation, which is stored too. It has the table of the largest request and one fact. The plan is a branching: where the
 * fact is so there is nothing to do, and else there are 44 of the largest request's branchings and 152 actions. So there are three lines.
 */
static void derived_largest(uint8_t *to) {
    static const uint8_t plan[12] = {0, 1, 255, 2, 1, 0, 0, 0, 1, 1, 0, 44 + 152}, first[19] = {0, 3, 1, 0, 0, 0, 1, 0, 1, 0, 1, 0, 0, 0, 0, 6, 1, 0, 0},
                         facts[2] = {1, 0}, last[5] = {0, 4, 1, 0, 1};
    const uint8_t *const start = to;
    uint8_t *line = derivation;
    unsigned place = 0;
    largest_request(request, &place);
    memcpy(to, request, 2);
    memcpy(to + 2, facts, 2);
    memcpy(to + 4, request + 3, place - 5);
    to += place - 1;
    memcpy(line, first, sizeof first);
    memcpy(line + sizeof first, facts, 2);
    line += sizeof first + 2;
    memcpy(line, plan, sizeof plan);
    memcpy(to, plan, sizeof plan);
    memcpy(line + sizeof plan, request + place, 44 * 154);
    memcpy(to + sizeof plan, request + place, 44 * 154);
    memset(line + sizeof plan + 44 * 154, 0, 152);
    memset(to + sizeof plan + 44 * 154, 0, 152 + 2);
    line += sizeof plan + 44 * 154 + 152;
    to += sizeof plan + 44 * 154 + 152 + 2;
    memcpy(line, last, sizeof last);
    derived_length = (size_t)(line + sizeof last - derivation);
    if (to - start != GLINTSTRING_REQUEST_LIMIT)
        puts("lengths: the largest request that has a derivation has another length");
}

/* The derive call on these bytes, with rooms of these lengths. The answer is that of the request; where that is 0, a room that is shorter than the derivation is
   answered by 39, and every other one starts with the derivation. */
static int derives(const uint8_t *bytes, size_t length, unsigned number, unsigned place) {
    const size_t lengths[] = {0, 1, 2, derived_length - 1, derived_length, derived_length + 1, GLINTSTRING_DERIVATION_LIMIT, GLINTSTRING_DERIVATION_LIMIT + 1,
                              ROOM};
    size_t i;
    int at_end;
    for (i = 0; i < sizeof lengths / sizeof *lengths; i++)
        for (at_end = 0; at_end <= 1; at_end++) {
            const size_t lent = lengths[i];
            uint8_t *room = at_end ? state_room + ROOM - lent : state_room;
            uint64_t answer;
            memset(state_room, LENT, ROOM);
            answer = glintstring_derive(bytes, length, lent == 0 && at_end ? NULL : room, lent, 7);
            if (!(number != GLINTSTRING_DERIVED ? is(answer, number, GLINTSTRING_REQUEST, place, 0)
                  : lent < derived_length       ? is(answer, GLINTSTRING_ROOM_SHORT, GLINTSTRING_NEITHER, 0, 0)
                                                : is(answer, number, GLINTSTRING_NEITHER, 0, (unsigned)derived_length)))
                return printf("lengths: a request of %lu bytes, a room of %lu for a derivation\n", (unsigned long)length, (unsigned long)lent), 0;
            if (glintstring_number(answer) == GLINTSTRING_DERIVED) {
                if (memcmp(room, derivation, derived_length) != 0) return puts("lengths: the derivation is another"), 0;
                if (!is(glintstring_check(bytes, length, room, derived_length), GLINTSTRING_ACCEPTED, GLINTSTRING_NEITHER, 0, 0)) return 0;
                memset(room, LENT, derived_length);
            }
            if (!kept("a room", lent)) return 0;
        }
    return 1;
}

/* The largest request stops the walk, as in the walk call; and the other one of its length has a derivation. */
static int derived(void) {
    static uint8_t bytes[GLINTSTRING_REQUEST_LIMIT + 1];
    unsigned place = 0;
    derived_largest(bytes);
    largest_request(request, &place);
    return asked(derives, request, GLINTSTRING_NOT_EXECUTABLE, place) && asked(derives, bytes, GLINTSTRING_DERIVED, 0);
}

typedef uint64_t (*derivation_call)(const uint8_t *, size_t, const uint8_t *, size_t);

/* The derivation call, or the whether call. */
static int checked(derivation_call call, int closing) {
    static uint8_t small[64];
    const size_t length = derived_request(small, closing ? 6 : 9);
    const uint8_t zero = 0;
    unsigned place = 0;
    int at_end;
    largest_request(request, &place);
    largest_derivation(derivation, closing);
    for (at_end = 0; at_end <= 1; at_end++) {
        const uint8_t *given = put(request_room, small, length, at_end);
        if (!is(call(given, length, NULL, 0), GLINTSTRING_INPUT_ENDS, GLINTSTRING_DERIVATION, 0, 0) ||
            !is(call(given, length, derivation_room - 1, 0), GLINTSTRING_INPUT_ENDS, GLINTSTRING_DERIVATION, 0, 0) ||
            !is(call(given, length, put(derivation_room, &zero, 1, at_end), 1), GLINTSTRING_INPUT_ENDS, GLINTSTRING_DERIVATION, 1, 0) ||
            !is(call(given, length, put(derivation_room, derivation, GLINTSTRING_DERIVATION_LIMIT, at_end), GLINTSTRING_DERIVATION_LIMIT),
                GLINTSTRING_ACCEPTED, GLINTSTRING_NEITHER, 0, 0) ||
            !is(call(given, length, put(derivation_room, derivation, sizeof derivation, at_end), sizeof derivation), GLINTSTRING_TOO_LONG,
                GLINTSTRING_DERIVATION, 0, 0))
            return 0;
        if (!is(call(NULL, 0, derivation_room, ROOM), GLINTSTRING_INPUT_ENDS, GLINTSTRING_REQUEST, 0, 0) ||
            !is(call(NULL, 0, NULL, 0), GLINTSTRING_INPUT_ENDS, GLINTSTRING_REQUEST, 0, 0) ||
            !is(call(put(request_room, &zero, 1, at_end), 1, NULL, 0), GLINTSTRING_COUNT_NOT_WITHIN_LIMITS, GLINTSTRING_REQUEST, 0, 0) ||
            !is(call(put(request_room, request, GLINTSTRING_REQUEST_LIMIT, at_end), GLINTSTRING_REQUEST_LIMIT, NULL, 0),
                GLINTSTRING_INPUT_ENDS, GLINTSTRING_DERIVATION, 0, 0) ||
            !is(call(put(request_room, request, sizeof request, at_end), sizeof request, NULL, 0), GLINTSTRING_TOO_LONG,
                GLINTSTRING_REQUEST, 0, 0))
            return 0;
    }
    return 1;
}

/*
 * The plans call and the release call on these bytes, with rows of every length. The answer is that of the file, which has one plan where it has
 * any: then it is 9 for all lengths but four. It is 0 for the largest file alone, and the row then says that the plan can't be run, at this place.
 */
static int releases(const uint8_t *bytes, size_t length, unsigned number, unsigned place) {
    const unsigned plans = number == GLINTSTRING_ANSWERED;
    size_t lent;
    int at_end;
    if (glintstring_plans(bytes, length) != plans)
        return printf("lengths: a file of %lu bytes has %lu plans\n", (unsigned long)length, (unsigned long)glintstring_plans(bytes, length)), 0;
    for (lent = 0; lent <= ROWS; lent++)
        for (at_end = 0; at_end <= 1; at_end++) {
            uint8_t *at = at_end ? state_room + ROOM - lent * sizeof(uint32_t) : state_room;
            uint32_t *row = (uint32_t *)(void *)at;
            uint64_t answer;
            memset(state_room, LENT, ROOM);
            answer = glintstring_release(bytes, length, lent == 0 && at_end ? NULL : row, lent, 7);
            if (!(plans != 0 && lent != GLINTSTRING_ROW_NUMBERS * plans ? is(answer, GLINTSTRING_ROW_LENGTH_WRONG, GLINTSTRING_NEITHER, 0, 0)
                  : number == GLINTSTRING_ANSWERED                       ? is(answer, number, GLINTSTRING_NEITHER, 0, 0)
                                                                         : is(answer, number, GLINTSTRING_REQUEST, place, 0)))
                return printf("lengths: a file of %lu bytes, %lu lent\n", (unsigned long)length, (unsigned long)lent), 0;
            if (glintstring_number(answer) == GLINTSTRING_ANSWERED) {
                if (row[0] != GLINTSTRING_NOT_EXECUTABLE || row[1] != place || row[2] != 0 || row[3] != GLINTSTRING_REQUEST)
                    return puts("lengths: the row of the largest file is another"), 0;
                memset(row, LENT, lent * sizeof(uint32_t));
            }
            if (!kept("a row", lent)) return 0;
        }
    return 1;
}

/* The largest file has the largest request's table and, after the count of its plans, its plan without the last action. */
static int released(void) {
    static uint8_t file[GLINTSTRING_REQUEST_LIMIT + 1];
    unsigned place = 0;
    largest_request(request, &place);
    memcpy(file, request, place - 2);
    file[place - 2] = 1;
    memcpy(file + place - 1, request + place - 2, GLINTSTRING_REQUEST_LIMIT + 1 - place);
    file[place]--;
    return asked(releases, file, GLINTSTRING_ANSWERED, place + 1);
}

/* No byte is read, so the inputs may lie where nothing may be read. */
static int shown(void) {
    static const size_t lengths[] = {0, 1, 16384, 16385, 32768, 32769, 65535, 65536};
    static const unsigned places[] = {0, 1, 16384, 16385, 32768, 32769, 65535};
    const uint8_t *const nowhere = request_room - 1;
    size_t i, j, k;
    unsigned input;
    for (i = 0; i < sizeof lengths / sizeof *lengths; i++)
        for (j = 0; j < sizeof lengths / sizeof *lengths; j++)
            for (k = 0; k < sizeof places / sizeof *places; k++)
                for (input = 0; input <= 255; input++) {
                    const uint64_t answer = 255 + ((uint64_t)input << 8) + ((uint64_t)places[k] << 16) + ((uint64_t)UINT32_MAX << 32);
                    const size_t length = input == GLINTSTRING_REQUEST ? lengths[i] : input == GLINTSTRING_DERIVATION ? lengths[j] : 0;
                    const uint64_t expected = places[k] < length ? places[k] : length;
                    const uint64_t start =
                        glintstring_show(answer, lengths[i] ? nowhere : NULL, lengths[i], lengths[j] ? nowhere : NULL, lengths[j]);
                    calls++;
                    if (start != expected)
                        return printf("lengths: input %u, place %u of %lu bytes is shown from %lu on\n", input, places[k], (unsigned long)length,
                                      (unsigned long)start), 0;
                }
    return 1;
}

int main(void) {
    request_room = stretch();
    derivation_room = stretch();
    state_room = stretch();
    line_room = stretch();
    memset(as_lent, LENT, ROOM);
    if (!request_room || !derivation_room || !state_room || !line_room || !judged() || !guarded() || !by_cases() || !by_values() || !indexed() ||
        !derived() || !checked(glintstring_check, 0) || !checked(glintstring_check_whether, 1) || !released() || !shown())
        return 1;
    printf("lengths: %lu calls at the ends of their lengths, lent states of 0 to %d bytes, rows of 0 to %d numbers and rooms of 0 to %d bytes\n", calls, STATES,
           ROWS, ROOMS);
    return 0;
}
