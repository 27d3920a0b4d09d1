/*
 * A libglintstring.a for the machine at hand that answers nothing by itself: each exported call goes as a frame to the process that the shell
 * starts by GLINTSTRING_DRIVER, and its reply is what the call gives. So whatever links libglintstring.a can be run over an archive for
 * another machine, unchanged. Where there is no reply, or a byte was changed that may not be, the call says so on standard error and gives a
 * number that is no answer.
 */
#define _GNU_SOURCE
#include <pthread.h>
#include <stdio.h>
#include <stdlib.h>
#include <sys/uio.h>
#include <sys/wait.h>
#include <unistd.h>

#include "frame.h"
#include "glintstring.h"

#define NO_ANSWER UINT64_MAX

static pthread_mutex_t lock = PTHREAD_MUTEX_INITIALIZER;
static pid_t driver;
static int to_driver, from_driver;

static void fail(const char *why) {
    fprintf(stderr, "archive: %s\n", why);
    _exit(2);
}

/* The driver writes its counts when its input ends. */
static void finish(void) {
    int status;
    close(to_driver);
    if (waitpid(driver, &status, 0) != driver || status != 0) fprintf(stderr, "archive: the driver did not end well\n");
}

static void start(void) {
    const char *command = getenv("GLINTSTRING_DRIVER");
    int in[2], out[2];
    if (command == NULL) fail("GLINTSTRING_DRIVER does not say how the driver is started");
    if (pipe(in) != 0 || pipe(out) != 0 || (driver = fork()) < 0) fail("the driver cannot be started");
    if (driver == 0) {
        dup2(in[0], 0);
        dup2(out[1], 1);
        close(in[0]), close(in[1]), close(out[0]), close(out[1]);
        execl("/bin/sh", "sh", "-c", command, (char *)NULL);
        fail("there is no shell");
    }
    close(in[0]), close(out[1]);
    to_driver = in[1];
    from_driver = out[0];
    atexit(finish);
}

static int sent(struct iovec *part, int parts) {
    while (parts > 0) {
        ssize_t length = writev(to_driver, part, parts);
        if (length < 0) return 0;
        for (; parts > 0 && (size_t)length >= part->iov_len; part++, parts--) length -= (ssize_t)part->iov_len;
        if (parts > 0) {
            part->iov_base = (char *)part->iov_base + length;
            part->iov_len -= (size_t)length;
        }
    }
    return 1;
}

static int received(void *to, size_t length) {
    for (char *next = to; length > 0;) {
        ssize_t part = read(from_driver, next, length);
        if (part <= 0) return 0;
        next += part;
        length -= (size_t)part;
    }
    return 1;
}

static uint8_t at(const uint8_t *bytes) { return bytes == NULL ? NOWHERE : (uint8_t)((uintptr_t)bytes & 15); }

/* The lent bytes are those of a walk call, a guarded call, a call by cases, an indexed call, a values call, an index call, a derive call or a release call, the
   third input is an index, and the line is that of a walk call with the line. */
static uint64_t made(struct frame frame, const uint8_t *request, const uint8_t *second, const uint8_t *third, uint8_t *lent, uint32_t *line) {
    static const char *const what[] = {"", "the request", "what stands around the request", "the derivation",
                                       "what stands around the lent state, the room, the derivation or the row", "what stands around the line",
                                       "the index", "what stands around the index"};
    struct iovec parts[] = {{&frame, sizeof frame},
                            {(void *)request, frame.request_length},
                            {(void *)second, frame.second_length},
                            {(void *)third, frame.third_length}};
    struct reply reply;
    frame.request_at = at(request);
    frame.second_at = at(second);
    frame.third_at = at(third);
    pthread_mutex_lock(&lock);
    if (driver == 0) start();
    int replied = sent(parts, 4) && received(&reply, sizeof reply) && (lent == NULL || received(lent, frame.second_length));
    pthread_mutex_unlock(&lock);
    if (replied && line != NULL) *line = reply.line;
    if (replied && reply.changed == NOTHING) return reply.answer;
    if (replied) fprintf(stderr, "archive: a call changed %s\n", what[reply.changed]);
    else fprintf(stderr, "archive: the driver gives no reply\n");
    return NO_ANSWER;
}

/* A call to which bytes are lent beside its request. */
static uint64_t lent_to(uint8_t call, const uint8_t *request, size_t request_length, uint8_t *lent, size_t length, uint32_t budget) {
    struct frame frame = {.call = call, .request_length = request_length, .second_length = length, .budget = budget};
    return made(frame, request, lent, NULL, lent, NULL);
}

uint64_t glintstring_judge(const uint8_t *request, size_t request_length, uint8_t *state, size_t state_length, uint32_t budget) {
    return lent_to(JUDGE, request, request_length, state, state_length, budget);
}

uint64_t glintstring_judge_guarded(const uint8_t *request, size_t request_length, uint8_t *state, size_t state_length, uint32_t budget) {
    return lent_to(JUDGE_GUARDED, request, request_length, state, state_length, budget);
}

uint64_t glintstring_judge_by_cases(const uint8_t *request, size_t request_length, uint8_t *state, size_t state_length, uint32_t budget) {
    return lent_to(JUDGE_BY_CASES, request, request_length, state, state_length, budget);
}

uint64_t glintstring_judge_values(const uint8_t *request, size_t request_length, uint8_t *state, size_t state_length, uint32_t budget) {
    return lent_to(JUDGE_VALUES, request, request_length, state, state_length, budget);
}

uint64_t glintstring_index(const uint8_t *request, size_t request_length, uint8_t *room, size_t room_length) {
    return lent_to(INDEX, request, request_length, room, room_length, 0);
}

uint64_t glintstring_derive(const uint8_t *request, size_t request_length, uint8_t *out, size_t out_length, uint32_t budget) {
    return lent_to(DERIVE, request, request_length, out, out_length, budget);
}

uint64_t glintstring_judge_indexed(const uint8_t *request, size_t request_length, const uint8_t *index, size_t index_length, uint8_t *state,
                                   size_t state_length, uint32_t budget) {
    struct frame frame = {.call = JUDGE_INDEXED,
                          .request_length = request_length,
                          .second_length = state_length,
                          .third_length = index_length,
                          .budget = budget};
    return made(frame, request, state, index, state, NULL);
}

uint64_t glintstring_judge_line(const uint8_t *request, size_t request_length, uint8_t *state, size_t state_length, uint32_t budget,
                                uint32_t *line) {
    struct frame frame = {.call = JUDGE_LINE, .request_length = request_length, .second_length = state_length, .budget = budget};
    return made(frame, request, state, NULL, state, line);
}

uint64_t glintstring_check(const uint8_t *request, size_t request_length, const uint8_t *derivation, size_t derivation_length) {
    struct frame frame = {.call = CHECK, .request_length = request_length, .second_length = derivation_length};
    return made(frame, request, derivation, NULL, NULL, NULL);
}

uint64_t glintstring_check_whether(const uint8_t *request, size_t request_length, const uint8_t *derivation, size_t derivation_length) {
    struct frame frame = {.call = CHECK_WHETHER, .request_length = request_length, .second_length = derivation_length};
    return made(frame, request, derivation, NULL, NULL, NULL);
}

uint64_t glintstring_show(uint64_t answer, const uint8_t *request, size_t request_length, const uint8_t *derivation,
                          size_t derivation_length) {
    struct frame frame = {.call = SHOW, .answer = answer, .request_length = request_length, .second_length = derivation_length};
    return made(frame, request, derivation, NULL, NULL, NULL);
}

uint64_t glintstring_release(const uint8_t *file, size_t file_length, uint32_t *row, size_t row_length, uint32_t budget) {
    struct frame frame = {.call = RELEASE, .request_length = file_length, .second_length = row_length * sizeof *row, .budget = budget};
    return made(frame, file, (uint8_t *)row, NULL, (uint8_t *)row, NULL);
}

uint32_t glintstring_plans(const uint8_t *file, size_t file_length) {
    struct frame frame = {.call = PLANS, .request_length = file_length};
    return (uint32_t)made(frame, file, NULL, NULL, NULL, NULL);
}
