// Makes one call on a stack of its own, and tells how many bytes of it were used.
//   driver walk BUDGET <REQUEST                     the walk call
//   driver guarded BUDGET <GUARDED REQUEST          the guarded call
//   driver by-cases BUDGET <REQUEST                 the call by cases
//   driver values BUDGET <VALUES REQUEST            the values call
//   driver indexed BUDGET <REQUEST                  the indexed call, with the index that the index call writes
//   driver index 0 <REQUEST                         the index call, with room enough
//   driver derive BUDGET <REQUEST                   the derive call, with room for every derivation
//   driver check LENGTH <REQUEST AND DERIVATION     the derivation call, on a request of that length and what follows it
//   driver whether LENGTH <REQUEST AND DERIVATION   the whether call in the same way
//   driver release BUDGET <RELEASE FILE             the release call, with a row of four numbers for each plan by the plans call
//   driver plans 0 <RELEASE FILE                    the plans call
// It prints number, input, place, count and the bytes of stack. In the place of a release file's own count is the sum of its plans' counts, and
// what the plans call gives is in that of the number.
// x86-64 Linux, and no library: so it can be linked on any machine.

typedef unsigned char byte;
typedef unsigned int u32;
typedef unsigned long u64;

// The calls as the archive has them (include/glintstring.h). Each gives number + 2^8 * input + 2^16 * place + 2^32 * count, but the plans call.
u64 glintstring_judge(const byte *request, u64 request_length, byte *state, u64 state_length, u32 budget);
u64 glintstring_judge_guarded(const byte *request, u64 request_length, byte *state, u64 state_length, u32 budget);
u64 glintstring_judge_by_cases(const byte *request, u64 request_length, byte *state, u64 state_length, u32 budget);
u64 glintstring_judge_values(const byte *request, u64 request_length, byte *state, u64 state_length, u32 budget);
u64 glintstring_judge_indexed(const byte *request, u64 request_length, const byte *index, u64 index_length, byte *state, u64 state_length, u32 budget);
u64 glintstring_index(const byte *request, u64 request_length, byte *room, u64 room_length);
u64 glintstring_derive(const byte *request, u64 request_length, byte *out, u64 out_length, u32 budget);
u64 glintstring_check(const byte *request, u64 request_length, const byte *derivation, u64 derivation_length);
u64 glintstring_check_whether(const byte *request, u64 request_length, const byte *derivation, u64 derivation_length);
u64 glintstring_release(const byte *file, u64 file_length, u32 *row, u64 row_length, u32 budget);
u32 glintstring_plans(const byte *file, u64 file_length);

// Bytes, or other values: where they start, and how many there are.
struct slice {
    void *at;
    u64 length;
};

enum { READ = 0, WRITE = 1, MMAP = 9, MPROTECT = 10, EXIT = 60 };

static long call(long number, long a, long b, long c, long d, long e, long f) {
    register long r10 __asm__("r10") = d;
    register long r8 __asm__("r8") = e;
    register long r9 __asm__("r9") = f;
    long result;
    __asm__ volatile("syscall" : "=a"(result) : "a"(number), "D"(a), "S"(b), "d"(c), "r"(r10), "r"(r8), "r"(r9) : "rcx", "r11", "memory");
    return result;
}

static _Noreturn void leave(int status) {
    for (;;) call(EXIT, status, 0, 0, 0, 0, 0);
}

static _Noreturn void fail(const char *why) {
    u64 length = 0;
    while (why[length]) length++;
    call(WRITE, 2, (long)why, length, 0, 0, 0);
    leave(2);
}

// What the compiler may call. Bytes are moved by instructions, so that it cannot turn these loops into calls of themselves.
void *memset(void *to, int value, u64 length) {
    void *at = to;
    __asm__ volatile("rep stosb" : "+D"(at), "+c"(length) : "a"(value) : "memory");
    return to;
}

void *memcpy(void *to, const void *from, u64 length) {
    void *at = to;
    __asm__ volatile("rep movsb" : "+D"(at), "+S"(from), "+c"(length) : : "memory");
    return to;
}

void *memmove(void *to, const void *from, u64 length) {
    if ((u64)to - (u64)from >= length) return memcpy(to, from, length);
    byte *at = (byte *)to + length - 1;
    const byte *source = (const byte *)from + length - 1;
    __asm__ volatile("std; rep movsb; cld" : "+D"(at), "+S"(source), "+c"(length) : : "memory");
    return to;
}

// The stack lent to the call, in words of eight bytes: far larger than any that passes, with a page below it that cannot be touched.
#define WORDS (1UL << 23)
#define PAGE 512UL

// What a word holds that was not written: no small number, no address, and another at each place.
static u64 untouched(u64 place) {
    return ~place * 0x9e3779b97f4a7c15UL;
}

// The call of a function of so many words, with the stack pointer at `top`; what is pushed for it, the seventh word and the place to return to, counts as used.
static u64 call_at(u64 *top, void *function, int count, const u64 words[7]) {
    u64 result, first = words[0], second = words[1], third = words[2], fourth = words[3];
    register u64 fifth __asm__("r8") = words[4];
    register u64 sixth __asm__("r9") = words[5];
    // At a call the stack pointer is a multiple of 16.
    if (count == 7) *(top -= 2) = words[6];
    __asm__ volatile("movq %%rsp, %%rbx\n\tmovq %[top], %%rsp\n\tcallq *%[function]\n\tmovq %%rbx, %%rsp"
                     : "=a"(result), "+D"(first), "+S"(second), "+d"(third), "+c"(fourth), "+r"(fifth), "+r"(sixth)
                     : [top] "r"(top), [function] "r"(function)
                     : "rbx", "r10", "r11", "xmm0", "xmm1", "xmm2", "xmm3", "xmm4", "xmm5", "xmm6", "xmm7", "xmm8", "xmm9",
                       "xmm10", "xmm11", "xmm12", "xmm13", "xmm14", "xmm15", "memory", "cc");
    return result;
}

// A call of two slices, and of one more word.
static u64 call_of_two(u64 *top, void *function, struct slice one, struct slice other, u64 last) {
    return call_at(top, function, 5, (u64[7]){(u64)one.at, one.length, (u64)other.at, other.length, last});
}

static void print(u64 number, char after) {
    char text[24];
    int at = sizeof text;
    text[--at] = after;
    do text[--at] = '0' + number % 10;
    while (number /= 10);
    call(WRITE, 1, (long)(text + at), sizeof text - at, 0, 0, 0);
}

static int is_word(const char *one, const char *other) {
    while (*one && *one == *other) one++, other++;
    return *one == *other;
}

static byte bytes[1 << 16];
static byte state[128];
static byte written[32768];
static u32 row[4 * 255];

_Noreturn __attribute__((used)) static void begin(long *arguments) {
    if (arguments[0] != 3) fail("driver: two arguments, walk, guarded, by-cases, values, indexed, derive or release and the budget, check or whether and the request's length, or index or plans and 0\n");
    const char *command = (const char *)arguments[2];
    u64 number = 0;
    for (const char *digit = (const char *)arguments[3]; *digit; digit++) {
        if (*digit < '0' || '9' < *digit) fail("driver: the second argument is not a number\n");
        number = 10 * number + (*digit - '0');
        if (number >> 32) fail("driver: the second argument is above 32 bits\n");
    }

    struct slice request = {bytes, 0}, lent = {state, sizeof state}, room = {written, sizeof written};
    for (;;) {
        long got = call(READ, 0, (long)(bytes + request.length), sizeof bytes - request.length, 0, 0, 0);
        if (got < 0) fail("driver: the request cannot be read\n");
        if (got == 0) break;
        request.length += got;
    }

    // Readable and writable, private, anonymous.
    long mapped = call(MMAP, 0, 8 * WORDS, 3, 0x22, -1, 0);
    if (mapped < 0 && mapped > -4096) fail("driver: no memory for a stack\n");
    if (call(MPROTECT, mapped, 8 * PAGE, 0, 0, 0, 0) != 0) fail("driver: the page below the stack cannot be closed\n");
    u64 *stack = (u64 *)mapped;
    for (u64 place = PAGE; place < WORDS; place++) stack[place] = untouched(place);

    u64 answer;
    if (is_word(command, "walk")) {
        answer = call_of_two(stack + WORDS, glintstring_judge, request, lent, number);
    } else if (is_word(command, "guarded")) {
        answer = call_of_two(stack + WORDS, glintstring_judge_guarded, request, lent, number);
    } else if (is_word(command, "by-cases")) {
        answer = call_of_two(stack + WORDS, glintstring_judge_by_cases, request, lent, number);
    } else if (is_word(command, "values")) {
        answer = call_of_two(stack + WORDS, glintstring_judge_values, request, lent, number);
    } else if (is_word(command, "indexed")) {
        room.length = glintstring_index(request.at, request.length, room.at, room.length) >> 32;
        answer = call_at(stack + WORDS, glintstring_judge_indexed, 7,
                         (u64[7]){(u64)request.at, request.length, (u64)room.at, room.length, (u64)lent.at, lent.length, number});
    } else if (is_word(command, "index")) {
        answer = call_of_two(stack + WORDS, glintstring_index, request, room, 0);
    } else if (is_word(command, "derive")) {
        answer = call_of_two(stack + WORDS, glintstring_derive, request, room, number);
    } else if (is_word(command, "release")) {
        struct slice rows = {row, 4 * glintstring_plans(request.at, request.length)};
        answer = call_of_two(stack + WORDS, glintstring_release, request, rows, number);
        for (u64 place = 2; place < rows.length; place += 4) answer += (u64)row[place] << 32;
    } else if (is_word(command, "plans")) {
        answer = call_at(stack + WORDS, glintstring_plans, 2, (u64[7]){(u64)request.at, request.length}) & 0xffffffff;
    } else {
        if (request.length < number) fail("driver: the request is shorter than its length\n");
        struct slice derivation = {bytes + number, request.length - number};
        request.length = number;
        answer = call_of_two(stack + WORDS, is_word(command, "check") ? (void *)glintstring_check : (void *)glintstring_check_whether, request, derivation, 0);
    }

    u64 lowest = PAGE;
    while (lowest < WORDS && stack[lowest] == untouched(lowest)) lowest++;
    print(answer & 255, ' ');
    print(answer >> 8 & 255, ' ');
    print(answer >> 16 & 65535, ' ');
    print(answer >> 32, ' ');
    print(8 * (WORDS - lowest), '\n');
    leave(0);
}

__asm__(".globl _start\n_start:\n\tmovq %rsp, %rdi\n\tandq $-16, %rsp\n\tcallq begin\n");
