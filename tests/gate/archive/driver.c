/*
 * Makes the calls of the archive that it is linked with: takes frames from standard input and writes replies to standard output, until the
 * input ends. Inputs stand between random bytes, and after each call it looks whether a byte changed that may not. A walk call, a guarded call, a call by
 * cases, an indexed call, a values call, a derive call and a release call have the stack that the header asks for, each other call 256 KiB, with a page below that
 * may not be touched.
 *   driver COUNTS [FAULT CALL]
 * At the end a line for each call and number, with how often it was given, is added to the file COUNTS. With a FAULT the call of that number,
 * from 1 on, goes wrong on purpose: its answer is another (answer), a byte is changed in its request or file (request), in its lent state or room,
 * derivation or row (second), just below that (below) or just above it (above), in its index (third), the line is another (line) or what stands around it
 * (beside), or the driver ends instead of a reply (end).
 */
#define _GNU_SOURCE
#include <stdio.h>
#include <stdlib.h>
#include <string.h>
#include <sys/mman.h>
#include <ucontext.h>
#include <unistd.h>

#include "frame.h"
#include "glintstring.h"

/* Bytes on each side of an input at least. */
#define FENCE 64
#define LITTLE_STACK (256u << 10)

static void fail(const char *why) {
    fprintf(stderr, "driver: %s\n", why);
    exit(1);
}

/* An input somewhere within other bytes, and a copy of them all from before the call. */
struct fenced {
    uint8_t *bytes;
    uint8_t *before;
    size_t room;
    size_t from;
    size_t length;
};

/* Other bytes at each call. */
static void fill(uint8_t *bytes, size_t length) {
    static uint64_t state = 1;
    while (length-- > 0) {
        state = state * 6364136223846793005u + 1442695040888963407u;
        *bytes++ = (uint8_t)(state >> 56);
    }
}

static void take(struct fenced *input, uint64_t length, uint8_t at) {
    size_t whole = FENCE + 16 + (size_t)length + FENCE;
    if (whole > input->room) {
        free(input->bytes);
        free(input->before);
        input->room = (2 * whole + 15) / 16 * 16;
        input->bytes = aligned_alloc(16, input->room);
        input->before = malloc(input->room);
        if (input->bytes == NULL || input->before == NULL) fail("there is no memory for an input");
    }
    input->from = FENCE + at % 16;
    input->length = (size_t)length;
    fill(input->bytes, input->from);
    if (fread(input->bytes + input->from, 1, input->length, stdin) != input->length) fail("a frame is not whole");
    fill(input->bytes + input->from + input->length, FENCE);
    memcpy(input->before, input->bytes, input->from + input->length + FENCE);
}

static int differ(const struct fenced *input, size_t from, size_t length) {
    return memcmp(input->bytes + from, input->before + from, length) != 0;
}

static int changed(const struct fenced *input) { return differ(input, input->from, input->length); }

static int changed_around(const struct fenced *input) {
    return differ(input, 0, input->from) || differ(input, input->from + input->length, FENCE);
}

/* The call that is made, and what it gives. */
static struct frame frame;
static struct fenced request, second, third;
static uint64_t answer;

/* The lent number, which is the one in the middle, and what it and those around it were before. */
static uint32_t line[3], line_before[3];

static void make(void) {
    const uint8_t *first = frame.request_at == NOWHERE ? NULL : request.bytes + request.from;
    uint8_t *other = frame.second_at == NOWHERE ? NULL : second.bytes + second.from;
    const uint8_t *index = frame.third_at == NOWHERE ? NULL : third.bytes + third.from;
    switch (frame.call) {
    case JUDGE: answer = glintstring_judge(first, request.length, other, second.length, frame.budget); break;
    case JUDGE_GUARDED: answer = glintstring_judge_guarded(first, request.length, other, second.length, frame.budget); break;
    case JUDGE_BY_CASES: answer = glintstring_judge_by_cases(first, request.length, other, second.length, frame.budget); break;
    case JUDGE_VALUES: answer = glintstring_judge_values(first, request.length, other, second.length, frame.budget); break;
    case INDEX: answer = glintstring_index(first, request.length, other, second.length); break;
    case DERIVE: answer = glintstring_derive(first, request.length, other, second.length, frame.budget); break;
    case JUDGE_INDEXED: answer = glintstring_judge_indexed(first, request.length, index, third.length, other, second.length, frame.budget); break;
    case JUDGE_LINE: answer = glintstring_judge_line(first, request.length, other, second.length, frame.budget, &line[1]); break;
    case CHECK: answer = glintstring_check(first, request.length, other, second.length); break;
    case CHECK_WHETHER: answer = glintstring_check_whether(first, request.length, other, second.length); break;
    case RELEASE: answer = glintstring_release(first, request.length, (uint32_t *)(void *)other, second.length / sizeof(uint32_t), frame.budget); break;
    case PLANS: answer = glintstring_plans(first, request.length); break;
    default: answer = glintstring_show(frame.answer, first, request.length, other, second.length);
    }
}

static char *stack_of(size_t length) {
    size_t page = (size_t)sysconf(_SC_PAGESIZE);
    char *below = mmap(NULL, page + length, PROT_READ | PROT_WRITE, MAP_PRIVATE | MAP_ANONYMOUS, -1, 0);
    if (below == MAP_FAILED || mprotect(below, page, PROT_NONE) != 0) fail("there is no memory for a stack");
    return below + page;
}

static void make_on(char *stack, size_t length) {
    ucontext_t here, there;
    if (getcontext(&there) != 0) fail("a call cannot have a stack of its own");
    there.uc_stack.ss_sp = stack;
    there.uc_stack.ss_size = length;
    there.uc_link = &here;
    makecontext(&there, make, 0);
    if (swapcontext(&here, &there) != 0) fail("a call cannot have a stack of its own");
}

static void go_wrong(const char *fault) {
    uint8_t *start = second.bytes + second.from;
    if (strcmp(fault, "answer") == 0) answer ^= 1;
    else if (strcmp(fault, "request") == 0) request.bytes[request.from] ^= 1;
    else if (strcmp(fault, "second") == 0) start[0] ^= 1;
    else if (strcmp(fault, "below") == 0) start[-1] ^= 1;
    else if (strcmp(fault, "above") == 0) start[second.length] ^= 1;
    else if (strcmp(fault, "third") == 0) third.bytes[third.from] ^= 1;
    else if (strcmp(fault, "line") == 0) line[1] ^= 1;
    else if (strcmp(fault, "beside") == 0) line[2] ^= 1;
    else fail("it ends, as it was told to");
}

static int walks(void) {
    return frame.call == JUDGE || frame.call == JUDGE_LINE || frame.call == JUDGE_GUARDED || frame.call == JUDGE_BY_CASES || frame.call == JUDGE_INDEXED ||
           frame.call == JUDGE_VALUES || frame.call == DERIVE || frame.call == RELEASE;
}

/* Whether the call may write its second input. */
static int writes(void) { return walks() || frame.call == INDEX; }

static uint32_t changed_by_call(void) {
    if (changed_around(&request)) return AROUND_REQUEST;
    if (changed(&request)) return REQUEST;
    if (changed_around(&second)) return AROUND_SECOND;
    if (!writes() && changed(&second)) return DERIVATION;
    if (changed_around(&third)) return AROUND_THIRD;
    if (changed(&third)) return THIRD;
    if (line[0] != line_before[0] || line[2] != line_before[2]) return AROUND_LINE;
    return NOTHING;
}

int main(int words, char **word) {
    static const char *const name[CALLS] = {"judge", "judge_line", "check", "check_whether", "show", "release", "plans", "judge_guarded", "judge_by_cases", "index", "judge_indexed", "derive", "judge_values"};
    static uint64_t given[CALLS][256];
    uint64_t calls = 0, faulty = words == 4 ? strtoull(word[3], NULL, 10) : 0;
    char *stack = stack_of(GLINTSTRING_STACK_NEEDED), *little_stack = stack_of(LITTLE_STACK);
    if (words != 2 && words != 4) fail("usage: driver COUNTS [FAULT CALL]");
    while (fread(&frame, sizeof frame, 1, stdin) == 1) {
        struct reply reply;
        if (frame.call >= CALLS) fail("there is no such call");
        take(&request, frame.request_length, frame.request_at);
        take(&second, frame.second_length, frame.second_at);
        take(&third, frame.third_length, frame.third_at);
        fill((uint8_t *)line, sizeof line);
        memcpy(line_before, line, sizeof line);
        if (walks()) make_on(stack, GLINTSTRING_STACK_NEEDED);
        else make_on(little_stack, LITTLE_STACK);
        /* What the showing call gives has no number. */
        given[frame.call][frame.call == SHOW ? 0 : glintstring_number(answer)]++;
        if (++calls == faulty) go_wrong(word[2]);
        reply.answer = answer;
        reply.changed = changed_by_call();
        reply.line = line[1];
        fwrite(&reply, sizeof reply, 1, stdout);
        if (writes()) fwrite(second.bytes + second.from, 1, second.length, stdout);
        if (fflush(stdout) != 0) fail("a reply cannot be written");
    }
    FILE *counts = fopen(word[1], "a");
    if (counts == NULL) fail("the counts cannot be written");
    for (int call = 0; call < CALLS; call++)
        for (int number = 0; number < 256; number++)
            if (given[call][number] != 0) fprintf(counts, "%s %d %llu\n", name[call], number, (unsigned long long)given[call][number]);
    if (fclose(counts) != 0) fail("the counts cannot be written");
    return 0;
}
