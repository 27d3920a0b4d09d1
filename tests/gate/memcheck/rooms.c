/*
 * The calls that write to a room, for memcheck, and those that take what was written: each input, the lent state and each room have just the memory that they
 * need, so that whatever is read or written beside them is reported.
 *   rooms index BUDGET REQUEST INDEX...
 *   rooms derive BUDGET REQUEST...
 * The first prints number, place and count of the index call with a room of 1,276 bytes and of the indexed call, a line each. The index call is also made with a
 * room that is just long enough, one that is a byte short and none, and the indexed call with what was written. The second prints number, place and count of the
 * derive call with a room of 32,768 bytes, and makes it with such other rooms too, and the derivation call with what was written. The exit status is 1, as some
 * answer is not 0.
 */
#include <stdio.h>
#include <stdlib.h>
#include <string.h>

#include "glintstring.h"

static void fail(const char *why, const char *name) {
    fprintf(stderr, "rooms: %s: %s\n", name, why);
    exit(2);
}

/* Memory for so many bytes, of which none is set; there may be none. */
static uint8_t *room_of(size_t length) {
    uint8_t *room = malloc(length);
    if (room == NULL && length > 0) fail("no memory", "a room");
    return room;
}

/* The bytes of a file, in memory of that length. */
static uint8_t *bytes_of(const char *name, size_t *length) {
    FILE *file = fopen(name, "rb");
    long end = file == NULL || fseek(file, 0, SEEK_END) != 0 ? -1 : ftell(file);
    if (end < 0 || fseek(file, 0, SEEK_SET) != 0) fail("it cannot be read", name);
    uint8_t *bytes = room_of((size_t)end);
    *length = (size_t)end;
    if (fread(bytes, 1, *length, file) != *length) fail("it cannot be read", name);
    fclose(file);
    return bytes;
}

static void print(uint64_t answer) {
    printf("  number %u, place %u, count %u\n", (unsigned)glintstring_number(answer), (unsigned)glintstring_place(answer), (unsigned)glintstring_count(answer));
}

static uint64_t judged(const uint8_t *request, size_t length, const uint8_t *index, size_t index_length, uint32_t budget) {
    uint8_t *state = room_of(GLINTSTRING_STATE_LENGTH);
    uint64_t answer = glintstring_judge_indexed(request, length, index, index_length, state, GLINTSTRING_STATE_LENGTH, budget);
    /* Only these two write the state, and all of it: a byte that is not set would be reported here. */
    int written = glintstring_number(answer) == GLINTSTRING_GOAL_MISSED || glintstring_number(answer) == GLINTSTRING_NOT_EXECUTABLE;
    for (size_t f = 0; written && f < GLINTSTRING_STATE_LENGTH; f++)
        if (state[f] > GLINTSTRING_FALSE) fail("a mark that is none", "the state");
    free(state);
    return answer;
}

/* A call that writes to a room. */
typedef uint64_t writing_call(const uint8_t *request, size_t length, uint8_t *room, size_t room_length, uint32_t budget);

static uint64_t build_index(const uint8_t *request, size_t length, uint8_t *room, size_t room_length, uint32_t budget) {
    (void)budget;
    return glintstring_index(request, length, room, room_length);
}

/* With what the index call wrote the indexed call answers as the walk call does. */
static void judge_by(const uint8_t *request, size_t length, const uint8_t *index, size_t index_length, uint32_t budget, const char *name) {
    uint8_t *state = room_of(GLINTSTRING_STATE_LENGTH);
    if (judged(request, length, index, index_length, budget) != glintstring_judge(request, length, state, GLINTSTRING_STATE_LENGTH, budget))
        fail("another answer than the walk call's", name);
    free(state);
}

/* What the derive call wrote the derivation call accepts. */
static void accept(const uint8_t *request, size_t length, const uint8_t *derivation, size_t derivation_length, uint32_t budget, const char *name) {
    (void)budget;
    if (glintstring_check(request, length, derivation, derivation_length) != GLINTSTRING_ACCEPTED) fail("the derivation is not accepted", name);
}

/* Prints the answer with a room of so many bytes, and tries rooms of the length of what was written, of one byte less and of none. What is in the first of these is
   taken by another call. */
static void in_rooms(writing_call *call, size_t most, const uint8_t *request, size_t length, uint32_t budget, const char *name,
                     void (*taken)(const uint8_t *, size_t, const uint8_t *, size_t, uint32_t, const char *)) {
    uint8_t *room = room_of(most);
    uint64_t answer = call(request, length, room, most, budget);
    print(answer);
    if (glintstring_number(answer) == 0) {
        size_t right = glintstring_count(answer);
        uint8_t *exact = room_of(right), *shorter = room_of(right - 1), *none = room_of(0);
        if (call(request, length, exact, right, budget) != answer) fail("a room that is just long enough", name);
        if (memcmp(exact, room, right) != 0) fail("other bytes in another room", name);
        if (call(request, length, shorter, right - 1, budget) != GLINTSTRING_ROOM_SHORT) fail("a room that is a byte short", name);
        if (call(request, length, none, 0, budget) != GLINTSTRING_ROOM_SHORT) fail("no room", name);
        taken(request, length, exact, right, budget, name);
        free(exact), free(shorter), free(none);
    }
    free(room);
}

int main(int words, char **word) {
    if (words < 3) fail("index or derive, a budget and files", "usage");
    int derives = strcmp(word[1], "derive") == 0, files = derives ? 1 : 2;
    uint32_t budget = (uint32_t)strtoul(word[2], NULL, 10);
    for (int next = 3; next + files <= words; next += files) {
        size_t length, index_length;
        uint8_t *request = bytes_of(word[next], &length);
        if (derives) in_rooms(glintstring_derive, GLINTSTRING_DERIVATION_LIMIT, request, length, budget, word[next], accept);
        else {
            uint8_t *index = bytes_of(word[next + 1], &index_length);
            in_rooms(build_index, GLINTSTRING_INDEX_MOST, request, length, budget, word[next], judge_by);
            print(judged(request, length, index, index_length, budget));
            free(index);
        }
        free(request);
    }
    return 1;
}
