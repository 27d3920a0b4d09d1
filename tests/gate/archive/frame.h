/* What goes between library.c and driver.c, which run on two machines. Both have the low byte of a number first. */
#ifndef FRAME_H
#define FRAME_H

#include <stdint.h>

/* The exported calls. */
enum { JUDGE, JUDGE_LINE, CHECK, CHECK_WHETHER, SHOW, RELEASE, PLANS, JUDGE_GUARDED, JUDGE_BY_CASES, INDEX, JUDGE_INDEXED, DERIVE, JUDGE_VALUES, CALLS };

/* What a call takes. The bytes of its first input follow, which is the request or the release file, then those of its second: the lent state, the
   lent room, the derivation, or the lent row, of which each number has four bytes; and then those of its third, which is the index.
   `*_at` has the low four bits of the address of an input, or NOWHERE for a null pointer. */
#define NOWHERE 255
struct frame {
    uint64_t answer; /* of the showing call */
    uint64_t request_length;
    uint64_t second_length;
    uint64_t third_length; /* of the indexed call */
    uint32_t budget;       /* of the walk call, the guarded call, the call by cases, the indexed call, the values call, the derive call and the release call */
    uint8_t call;
    uint8_t request_at;
    uint8_t second_at;
    uint8_t third_at;
};

/* What it may not change, and changed. */
enum { NOTHING, REQUEST, AROUND_REQUEST, DERIVATION, AROUND_SECOND, AROUND_LINE, THIRD, AROUND_THIRD };

/* What it gave. After a walk call, a guarded call, a call by cases, an indexed call, a values call, an index call, a derive call or a release call the lent bytes
   follow. */
struct reply {
    uint64_t answer;
    uint32_t changed;
    uint32_t line; /* of the walk call with the line */
};

#endif
