/*
 * Counts how the walk call reads the bytes of effects. It is linked to a copy of the library whose byte reads call counted_read, or counted_entry
 * where a list is gone over as a slice, and which calls counted_note where a walk begins and where the making of a state after an action begins and ends. While a state is made, each byte read of the
 * effects has to be of an effect of that action and to stand after the byte read before it, so none is read twice; at any other time of the
 * walk none may be read. Else the process ends. At its end the figures are added to the file that READS names.
 */
#include <stdint.h>
#include <stdio.h>
#include <stdlib.h>

enum { STATE_MADE = 256, WALK_BEGINS = 257 };
enum { NO_ACTION = -1 };

#define REQUEST_MOST 16384

/* The library's sources pass a slice among themselves as a pointer and a length. */
uint8_t counted_read(const uint8_t *start, uint64_t length, uint64_t place);
uint8_t counted_entry(const uint8_t *entry);
uint64_t counted_note(const uint8_t *start, uint64_t length, uint64_t what);
uint64_t __real_glintstring_judge(const uint8_t *request, size_t request_length, uint8_t *state, size_t state_length, uint32_t budget);
uint64_t __wrap_glintstring_judge(const uint8_t *request, size_t request_length, uint8_t *state, size_t state_length, uint32_t budget);

/* The request of the call that is made: the action of the effect that a byte belongs to, or NO_ACTION; and how many bytes an action's effects
   have without their action bytes, which are read once for all while the request is. */
static const uint8_t *request;
static size_t request_bytes;
static int16_t action_of[REQUEST_MOST];
static uint64_t bytes_of[256];
static int walking, walks_it, action = NO_ACTION;
static uint64_t last;

static uint64_t walks, states, bytes, reads;

static void fault(const char *why, uint64_t place) {
    fprintf(stderr, "reads: the byte at %llu is %s\n", (unsigned long long)place, why);
    _Exit(1);
}

/* Sections 1 to 3, as far as they go. */
static void find_effects(size_t length) {
    for (size_t i = 0; i < REQUEST_MOST; i++) action_of[i] = NO_ACTION;
    for (int a = 0; a < 256; a++) bytes_of[a] = 0;
    if (length > REQUEST_MOST || length < 3) return;
    size_t place = 3 + (size_t)request[2];
    if (place >= length) return;
    for (int left = request[place++]; left > 0 && place + 2 < length; left--) {
        size_t end = place + 3 + request[place + 2];
        if (end > length) return;
        int line = request[place];
        bytes_of[line] += end - place - 1;
        while (place < end) action_of[place++] = (int16_t)line;
    }
}

uint64_t __wrap_glintstring_judge(const uint8_t *first, size_t length, uint8_t *state, size_t state_length, uint32_t budget) {
    request = first;
    request_bytes = length;
    walking = 0;
    find_effects(first == NULL ? 0 : length);
    uint64_t answer = __real_glintstring_judge(first, length, state, state_length, budget);
    walks += (uint64_t)walking;
    walking = 0;
    action = NO_ACTION;
    return answer;
}

uint64_t counted_note(const uint8_t *start, uint64_t length, uint64_t what) {
    (void)length;
    if (what == WALK_BEGINS) {
        walking = 1;
        walks_it = start == request;
    } else if (walking && what == STATE_MADE) action = NO_ACTION;
    else if (walking) {
        action = (int)what;
        last = 0;
        states++;
        bytes += bytes_of[action];
    }
    return what;
}

static void count(uint64_t place) {
    if (!walking || place >= REQUEST_MOST || action_of[place] == NO_ACTION) return;
    if (action == NO_ACTION) fault("of an effect, and no state is being made", place);
    if (action_of[place] != action) fault("of another action's effect", place);
    if (place <= last) fault("read twice, or after a later one", place);
    last = place;
    reads++;
}

uint8_t counted_read(const uint8_t *start, uint64_t length, uint64_t place) {
    (void)length;
    if (start == request) count(place);
    return start[place];
}

/* An entry of a list of the request that is walked, or of another input. */
uint8_t counted_entry(const uint8_t *entry) {
    uintptr_t first = (uintptr_t)request, here = (uintptr_t)entry;
    if (walks_it && here >= first && here - first < request_bytes) count(here - first);
    return *entry;
}

__attribute__((destructor)) static void tell(void) {
    FILE *file = fopen(getenv("READS"), "a");
    if (file != NULL) fprintf(file, "%llu %llu %llu %llu\n", (unsigned long long)walks, (unsigned long long)states, (unsigned long long)bytes, (unsigned long long)reads);
    if (file == NULL || fclose(file) != 0) _Exit(1);
}
