/*
 * Judges requests, or checks derivations, and says in words what the answer is, with the bytes at its place.
 *
 *   review judge [--line] [--budget N] REQUEST...           (100,000 unless told otherwise)
 *   review judge-guarded [--budget N] REQUEST...
 *   review judge-by-cases [--budget N] REQUEST...
 *   review judge-values [--budget N] REQUEST...
 *   review index REQUEST...
 *   review judge-indexed [--budget N] REQUEST INDEX [REQUEST INDEX]...
 *   review derive [--budget N] REQUEST...
 *   review check REQUEST DERIVATION [REQUEST DERIVATION]...
 *   review check-whether REQUEST DERIVATION [REQUEST DERIVATION]...
 *   review release [--budget N] FILE...
 *
 * `check` and `check-whether` do not walk the plan: a derivation may be accepted where every budget is spent. The second takes requests
 * with whether entries too, and derivations in the closing layout. With `--line` a walk that an action stops also says which executability line
 * of it was missing. `judge-guarded` takes guarded requests, whose guards are to be known true all the way. `judge-by-cases` tries each action in every
 * filling of what is unknown. `judge-values` takes values requests, whose fluents have 2 to 16 values each. `index` says how the index of each request begins, and
 * `judge-indexed` walks by an index, which the program `index` has written to a file. `derive` walks too, and says how the derivation of each request begins, which
 * the program `derive` writes to a file. `release` takes release files, each with many plans over one table, and has a line for each plan. The exit status is 0 where
 * each plan is verified, each derivation accepted or written or each request indexed, 1 where some answer is another, and 2 where something can't be read or written.
 */
#define _POSIX_C_SOURCE 200809L
#include <errno.h>
#include <glintstring.h>
#include <pthread.h>
#include <stdio.h>
#include <stdlib.h>
#include <string.h>

/* The walk call may need GLINTSTRING_STACK_NEEDED bytes of stack; the rest is for the thread itself. */
#define STACK (GLINTSTRING_STACK_NEEDED + (1 << 20))

/* How many bytes are printed of the part that an answer is about. */
#define SHOWN 16

enum { GOOD = 0, OTHER = 1, FAILED = 2 };

struct input {
    const char *name;
    uint8_t *bytes;
    size_t length;
};

/* Prints these bytes from a place on, and of what they are. */
static void show(const char *what, const struct input *input, size_t start) {
    size_t i;
    printf("  %s from %lu:", what, (unsigned long)start);
    for (i = start; i < input->length && i < start + SHOWN; i++)
        printf(" %u", input->bytes[i]);
    puts(start == input->length ? " it ends there" : i < input->length ? " ..." : "");
}

/* A state as it is printed: its marks, or the values that are known. A request that was walked starts with its number of fluents. */
typedef void print_state(const uint8_t *state, size_t fluents);

static void print_marks(const uint8_t *state, size_t fluents) {
    size_t f;
    printf("  state ");
    for (f = 0; f < fluents; f++)
        putchar(state[f] == GLINTSTRING_TRUE ? '+' : state[f] == GLINTSTRING_FALSE ? '-' : '?');
    putchar('\n');
}

static void print_values(const uint8_t *state, size_t fluents) {
    size_t f;
    printf("  state");
    for (f = 0; f < fluents; f++)
        if (state[f] == GLINTSTRING_UNKNOWN)
            printf(" ?");
        else
            printf(" %d", state[f] - 1);
    putchar('\n');
}

/* The state that a call was lent, and how it is printed. */
struct lent {
    const uint8_t *state;
    print_state *print;
};

/*
 * Prints the words, which are these for number 0, the numbers, the state that answers 1, 2 and 43 wrote, and the bytes at the place. `second` is the derivation or
 * the index, or null where there is neither, and `lent` is null where no state was lent.
 */
static int tell(uint64_t answer, const char *zero, const struct input *request, const struct input *second, const struct lent *lent) {
    static const struct input none = {"", NULL, 0};
    static const char *const kinds[] = {"", "request", "derivation", "index"};
    const struct input *other = second ? second : &none;
    const uint8_t number = glintstring_number(answer), input = glintstring_input(answer);

    if (second)
        printf("%s with %s: ", request->name, second->name);
    else
        printf("%s: ", request->name);
    puts(number == GLINTSTRING_VERIFIED ? zero : glintstring_words(number));
    printf("  number %u, place %u, count %lu\n", number, glintstring_place(answer), (unsigned long)glintstring_count(answer));
    if (lent && (number == GLINTSTRING_GOAL_MISSED || number == GLINTSTRING_NOT_EXECUTABLE || number == GLINTSTRING_GUARD_BROKEN))
        lent->print(lent->state, request->bytes[0]);
    if (input == GLINTSTRING_INDEX) /* which the showing call does not know */
        show(kinds[input], other, glintstring_place(answer));
    else if (input != GLINTSTRING_NEITHER)
        show(kinds[input], input == GLINTSTRING_REQUEST ? request : other,
             (size_t)glintstring_show(answer, request->bytes, request->length, other->bytes, other->length));
    return number == GLINTSTRING_VERIFIED ? GOOD : OTHER;
}

/* Reads a file, and one byte beyond the limit at the most: longer inputs are all answered alike. The bytes are to be freed. */
static int read_input(const char *name, size_t limit, struct input *input) {
    FILE *file = fopen(name, "rb");
    int failed = 1;
    input->name = name;
    input->bytes = malloc(limit + 1);
    input->length = 0;
    if (file && input->bytes) {
        input->length = fread(input->bytes, 1, limit + 1, file);
        failed = ferror(file);
    }
    if (failed)
        fprintf(stderr, "review: %s: %s\n", name, strerror(errno));
    if (file)
        fclose(file);
    return failed ? FAILED : GOOD;
}

/* Prints where the line starts that an answer carries, and its bytes: an action, a count, and as many literals. */
static void tell_line(const struct input *request, uint32_t line) {
    size_t i;
    if (line == 0) {
        puts("  no line");
        return;
    }
    printf("  line from %lu:", (unsigned long)line);
    for (i = line; i < (size_t)line + 2 + request->bytes[line + 1]; i++)
        printf(" %u", request->bytes[i]);
    putchar('\n');
}

/* The word for number 0 of a call that walks. */
static const char *verified(void) { return glintstring_words(GLINTSTRING_VERIFIED); }

static int judge_line(const char *name, uint32_t budget, int lined) {
    uint8_t state[GLINTSTRING_STATE_LENGTH] = {0};
    const struct lent lent = {state, print_marks};
    uint32_t line;
    struct input request;
    int status = read_input(name, GLINTSTRING_REQUEST_LIMIT, &request);
    if (status == GOOD) {
        const uint64_t answer = glintstring_judge_line(request.bytes, request.length, state, sizeof state, budget, &line);
        status = tell(answer, verified(), &request, NULL, &lent);
        if (lined)
            tell_line(&request, line);
    }
    free(request.bytes);
    return status;
}

/* The guarded call, the call by cases or the values call. */
typedef uint64_t walking_call(const uint8_t *request, size_t request_length, uint8_t *state, size_t state_length, uint32_t budget);

/* The same by another call. */
static int judge_by(walking_call *call, print_state *print, const char *name, uint32_t budget) {
    uint8_t state[GLINTSTRING_STATE_LENGTH] = {0};
    const struct lent lent = {state, print};
    struct input request;
    int status = read_input(name, GLINTSTRING_REQUEST_LIMIT, &request);
    if (status == GOOD)
        status = tell(call(request.bytes, request.length, state, sizeof state, budget), verified(), &request, NULL, &lent);
    free(request.bytes);
    return status;
}

/* What a command does for the files of one answer, which are one or two. */
static int judge(char **names, uint32_t budget) { return judge_line(names[0], budget, 0); }
static int judge_and_line(char **names, uint32_t budget) { return judge_line(names[0], budget, 1); }
static int judge_guarded(char **names, uint32_t budget) { return judge_by(glintstring_judge_guarded, print_marks, names[0], budget); }
static int judge_by_cases(char **names, uint32_t budget) { return judge_by(glintstring_judge_by_cases, print_marks, names[0], budget); }
static int judge_values(char **names, uint32_t budget) { return judge_by(glintstring_judge_values, print_values, names[0], budget); }

/* Prints what a call that writes to a room answers, and how what it wrote begins. */
static int tell_written(uint64_t answer, const char *zero, const char *what, const struct input *request, uint8_t *room) {
    const struct input written = {"", room, glintstring_count(answer)};
    const int status = tell(answer, zero, request, NULL, NULL);
    if (status == GOOD)
        show(what, &written, 0);
    return status;
}

/* Builds the index of a request, in a room that is long enough for any. */
static int build_index(char **names, uint32_t budget) {
    uint8_t room[GLINTSTRING_INDEX_MOST];
    struct input request;
    int status = read_input(names[0], GLINTSTRING_REQUEST_LIMIT, &request);
    (void)budget;
    if (status == GOOD)
        status = tell_written(glintstring_index(request.bytes, request.length, room, sizeof room), "indexed", "index", &request, room);
    free(request.bytes);
    return status;
}

/* Walks the plan of a request and writes a derivation, in a room that is long enough for any. */
static int derive(char **names, uint32_t budget) {
    uint8_t room[GLINTSTRING_DERIVATION_LIMIT];
    struct input request;
    int status = read_input(names[0], GLINTSTRING_REQUEST_LIMIT, &request);
    if (status == GOOD)
        status = tell_written(glintstring_derive(request.bytes, request.length, room, sizeof room, budget), "derived", "derivation", &request, room);
    free(request.bytes);
    return status;
}

/* Reads both files of an answer, and says of each whether it can't be read. */
static int read_both(char **names, struct input *request, size_t limit, struct input *second) {
    const int status = read_input(names[0], GLINTSTRING_REQUEST_LIMIT, request);
    return read_input(names[1], limit, second) == GOOD ? status : FAILED;
}

static int judge_indexed(char **names, uint32_t budget) {
    uint8_t state[GLINTSTRING_STATE_LENGTH] = {0};
    const struct lent lent = {state, print_marks};
    struct input request, index;
    int status = read_both(names, &request, GLINTSTRING_INDEX_MOST, &index);
    if (status == GOOD) {
        const uint64_t answer =
            glintstring_judge_indexed(request.bytes, request.length, index.bytes, index.length, state, sizeof state, budget);
        status = tell(answer, verified(), &request, &index, &lent);
    }
    free(request.bytes);
    free(index.bytes);
    return status;
}

/* Prints a line for each plan, from the row. */
static int tell_plans(const char *name, const uint32_t *row, uint32_t plans) {
    int status = GOOD;
    uint32_t plan;
    printf("%s: answered\n", name);
    for (plan = 0; plan < plans; plan++, row += GLINTSTRING_ROW_NUMBERS) {
        printf("  plan %lu: %s, number %lu, place %lu, count %lu\n", (unsigned long)plan, glintstring_words(row[0]), (unsigned long)row[0],
               (unsigned long)row[1], (unsigned long)row[2]);
        status = row[0] == GLINTSTRING_VERIFIED ? status : OTHER;
    }
    return status;
}

/* Answers the plans of a release file, with a row that is as long as the file asks for. */
static int release(char **names, uint32_t budget) {
    uint32_t row[GLINTSTRING_ROW_NUMBERS * GLINTSTRING_MOST_PLANS];
    struct input file;
    int status = read_input(names[0], GLINTSTRING_REQUEST_LIMIT, &file);
    if (status == GOOD) {
        const uint32_t plans = glintstring_plans(file.bytes, file.length);
        const uint64_t answer = glintstring_release(file.bytes, file.length, row, GLINTSTRING_ROW_NUMBERS * plans, budget);
        const int answered = glintstring_number(answer) == GLINTSTRING_ANSWERED;
        status = answered ? tell_plans(names[0], row, plans) : tell(answer, "answered", &file, NULL, NULL);
    }
    free(file.bytes);
    return status;
}

/* The derivation call or the whether call. */
typedef uint64_t checking_call(const uint8_t *request, size_t request_length, const uint8_t *derivation, size_t derivation_length);

static int check_by(checking_call *call, char **names) {
    struct input request, derivation;
    int status = read_both(names, &request, GLINTSTRING_DERIVATION_LIMIT, &derivation);
    if (status == GOOD)
        status = tell(call(request.bytes, request.length, derivation.bytes, derivation.length), "accepted", &request, &derivation, NULL);
    free(request.bytes);
    free(derivation.bytes);
    return status;
}

static int check(char **names, uint32_t budget) { return (void)budget, check_by(glintstring_check, names); }
static int check_whether(char **names, uint32_t budget) { return (void)budget, check_by(glintstring_check_whether, names); }

/* The commands, each with the number of files that an answer takes, and whether there is a budget. */
static const struct command {
    const char *name;
    int files;
    int budgeted;
    int (*answer)(char **names, uint32_t budget);
} commands[] = {
    {"judge", 1, 1, judge},
    {"judge-guarded", 1, 1, judge_guarded},
    {"judge-by-cases", 1, 1, judge_by_cases},
    {"judge-values", 1, 1, judge_values},
    {"index", 1, 0, build_index},
    {"judge-indexed", 2, 1, judge_indexed},
    {"derive", 1, 1, derive},
    {"check", 2, 0, check},
    {"check-whether", 2, 0, check_whether},
    {"release", 1, 1, release},
};

/* Digits, of a number of 32 bits. */
static int is_budget(const char *word, uint32_t *budget) {
    uint64_t number = 0;
    const char *digit;
    for (digit = word; *digit >= '0' && *digit <= '9' && number <= UINT32_MAX; digit++)
        number = 10 * number + (uint64_t)(*digit - '0');
    *budget = (uint32_t)number;
    return digit != word && *digit == 0 && number <= UINT32_MAX;
}

static int usage(void) {
    fputs("usage: review judge [--line] [--budget N] REQUEST... | review judge-guarded [--budget N] REQUEST... | "
          "review judge-by-cases [--budget N] REQUEST... | review judge-values [--budget N] REQUEST... | review index REQUEST... | "
          "review judge-indexed [--budget N] REQUEST INDEX [REQUEST INDEX]... | review derive [--budget N] REQUEST... | "
          "review check REQUEST DERIVATION [REQUEST DERIVATION]... | "
          "review check-whether REQUEST DERIVATION [REQUEST DERIVATION]... | review release [--budget N] FILE...\n",
          stderr);
    return FAILED;
}

static int review(int count, char **word) {
    const struct command *command = commands, *const end = commands + sizeof commands / sizeof *commands;
    int (*answer)(char **names, uint32_t budget);
    uint32_t budget = 100000;
    int worst = GOOD, first = 1, i;
    while (command < end && (count == 0 || strcmp(word[0], command->name) != 0))
        command++;
    if (command == end)
        return usage();
    answer = command->answer;
    if (answer == judge && count > first && strcmp(word[first], "--line") == 0) {
        answer = judge_and_line;
        first++;
    }
    if (command->budgeted && count > first && strcmp(word[first], "--budget") == 0) {
        if (count == first + 1 || !is_budget(word[first + 1], &budget))
            return usage();
        first += 2;
    }
    if (count == first || (count - first) % command->files != 0)
        return usage();
    for (i = first; i < count; i += command->files) {
        const int status = answer(word + i, budget);
        worst = status > worst ? status : worst;
    }
    if (fflush(stdout) != 0 || ferror(stdout)) {
        fputs("review: standard output can't be written\n", stderr);
        return FAILED;
    }
    return worst;
}

/* The words of the command line, and the exit status. */
struct work {
    int count;
    char **words;
    int status;
};

static void *begin(void *given) {
    struct work *work = given;
    work->status = review(work->count, work->words);
    return NULL;
}

int main(int count, char **words) {
    struct work work = {count - 1, words + 1, FAILED};
    pthread_attr_t attributes;
    pthread_t thread;
    if (pthread_attr_init(&attributes) != 0 || pthread_attr_setstacksize(&attributes, STACK) != 0 ||
        pthread_create(&thread, &attributes, begin, &work) != 0 || pthread_join(thread, NULL) != 0) {
        fputs("review: the system gives no thread of the stack that a walk may need\n", stderr);
        return FAILED;
    }
    pthread_attr_destroy(&attributes);
    return work.status;
}
