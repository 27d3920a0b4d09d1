/*
 * Glintstring: a proved verifier of conditional upgrade plans.
 *
 * A request has a domain table, a plan and goals in its bytes, a guarded request has guards behind these, a values request has fluents
 * with 2 to 16 values each, a derivation has lines by which the plan reaches its goals, a release file has many plans over one table, and
 * an index says where the lines of each action stand in a request; docs/FORMAT.md is the format, and numbers such as FORMAT 4.3 are those
 * of its sentences. docs/STATEMENTS.md says what is proved of each call. Link libglintstring.a, which `packaging/library` writes
 * for x86-64 Linux. C99 or later, or C++. examples/c/review.c is a small program that uses all of it.
 */
#ifndef GLINTSTRING_H
#define GLINTSTRING_H

#include <stddef.h>
#include <stdint.h>

#ifdef __cplusplus
extern "C" {
#endif

/* The version of this header, and of the library that it is for. */
#define GLINTSTRING_VERSION "0.3.0"
#define GLINTSTRING_VERSION_MAJOR 0
#define GLINTSTRING_VERSION_MINOR 3
#define GLINTSTRING_VERSION_PATCH 0

/* The length of the state that the walk call, the guarded call, the call by cases, the indexed call and the values call are lent. */
#define GLINTSTRING_STATE_LENGTH 128

/* Guards that a guarded request may have. */
#define GLINTSTRING_MOST_GUARDS 64

/* Open fluents that an action may have where the call by cases meets it (FORMAT 22.8). */
#define GLINTSTRING_MOST_OPEN 12

/* Unknown fluents that a sensing action may have where the derive call meets it (FORMAT 24.4). */
#define GLINTSTRING_MOST_FORKED 6

/* Values that a fluent of a values request may have; it has two at the least (FORMAT 26.1). */
#define GLINTSTRING_MOST_VALUES 16

/* Bytes that the index of a request may have (FORMAT 23.5): a room of so many is never too short. */
#define GLINTSTRING_INDEX_MOST 1276

/* Plans that a release file may have, and numbers for each of them in the row that the release call is lent. */
#define GLINTSTRING_MOST_PLANS 64
#define GLINTSTRING_ROW_NUMBERS 4

/*
 * Bytes that each input may have; a guarded request, a values request or a release file may have as many as a request. One byte more is
 * answered as any longer input, so that no more of a file need be read. The derive call writes no derivation that is longer either: a
 * room of GLINTSTRING_DERIVATION_LIMIT bytes is as good as any.
 */
#define GLINTSTRING_REQUEST_LIMIT 16384
#define GLINTSTRING_DERIVATION_LIMIT 32768

/* Bytes of free stack that a call may need: 16 MiB (docs/MEASURED.md, for the calls that walk; the others need less). */
#define GLINTSTRING_STACK_NEEDED 16777216

/* The marks of a fluent in a state. After the values call a fluent that is known to be v has v + 1 there, and unknown is 0 as well. */
#define GLINTSTRING_UNKNOWN 0
#define GLINTSTRING_TRUE 1
#define GLINTSTRING_FALSE 2

/* The input that an answer's place is in. To the release call its file is the request. */
#define GLINTSTRING_NEITHER 0
#define GLINTSTRING_REQUEST 1
#define GLINTSTRING_DERIVATION 2
#define GLINTSTRING_INDEX 3

/*
 * The numbers of answers (FORMAT 4.3 to 4.25, 17.35, 17.36, 19.10, 21.10, 22.9, 23.8, 23.15, 24.16 to 24.18 and 26.8), each with what its
 * place is. The walk call gives 0 to 3 and 9 to 21; of the calls that are like it the guarded call also gives 43, the call by cases also
 * 44, the indexed call also 45, and the values call also 46. The index call gives 0, 10 to 21 and 39. The derivation call gives 0, 10 to
 * 21 and 30 to 35, the whether call 0, 10 to 21, 31 to 34 and 36. The derive call gives 0 to 3, 10 to 21, 30 and 37 to 39. The release
 * call itself gives 0, 9 to 17 and 20, and to each plan 0 to 3, 11 to 15, 18, 19, 21 and 22. Of a derivation's faults 10 to 15 and 18 to
 * 21 are told by the same numbers as a request's: the answer names the input. In a values request a literal has two bytes: 14, 15 and 46
 * are placed at the first of them, and 13 at the one that is too large.
 */
#define GLINTSTRING_VERIFIED 0                  /* the walk verifies the plan; place 0 */
#define GLINTSTRING_ACCEPTED 0                  /* the derivation call, the whether call: the derivation is accepted; place 0 */
#define GLINTSTRING_ANSWERED 0                  /* the release call: the row has an answer for each plan; place 0 */
#define GLINTSTRING_INDEXED 0                   /* the index call: the room starts with the index; place 0 */
#define GLINTSTRING_DERIVED 0                   /* the derive call: the walk verifies the plan, and the room starts with a derivation of
                                                   what the request asks; place 0 */
#define GLINTSTRING_GOAL_MISSED 1               /* all paths can be run to their ends, and an end state misses a goal or a whether
                                                   entry; the first entry missed in the first such state */
#define GLINTSTRING_NOT_EXECUTABLE 2            /* a path comes to an item that cannot be run; that item */
#define GLINTSTRING_BUDGET_SPENT 3              /* the walk counts to more than the budget; place 0 */
#define GLINTSTRING_STATE_LENGTH_WRONG 9        /* the lent state has another length than 128 bytes; place 0 */
#define GLINTSTRING_ROW_LENGTH_WRONG 9          /* the release call: the lent row has another length than four numbers for each
                                                   plan; place 0 */
#define GLINTSTRING_TOO_LONG 10                 /* the request or the release file has more than 16,384 bytes, or the derivation
                                                   more than 32,768; place 0 */
#define GLINTSTRING_INPUT_ENDS 11               /* the input ends where a byte is due; its length */
#define GLINTSTRING_COUNT_NOT_WITHIN_LIMITS 12  /* a count is not within its limits; the count */
#define GLINTSTRING_TOO_LARGE 13                /* a byte is too large for its fluent, literal or action; that byte */
#define GLINTSTRING_NOT_LARGER 14               /* a list's entry is not larger than its predecessor; that byte */
#define GLINTSTRING_COMPLEMENT 15               /* a literal is its predecessor's complement, or of a values request: it leaves its
                                                   fluent no value, together with those before it in the list; that byte */
#define GLINTSTRING_CONTRADICTORY 16            /* two effects are contradictory; the later, and of all such the earliest */
#define GLINTSTRING_EFFECTS_AND_KNOWLEDGE 17    /* an action has effect lines and knowledge lines; the first such of the latter */
#define GLINTSTRING_NOT_EXCLUSIVE 18            /* a branching has two conditions that are not exclusive; its byte 255 */
#define GLINTSTRING_TOO_DEEP 19                 /* a branching stands inside eight others; its byte 255 */
#define GLINTSTRING_BYTES_LEFT_OVER 20          /* bytes are left over after the last section, line or closing list, or after
                                                   the last plan of a release file; the first */
#define GLINTSTRING_TOO_MANY_ITEMS 21           /* a plan goes on to a 1,025th item; its first byte */
#define GLINTSTRING_NOT_REACHED 22              /* a plan of a release file comes after one that fails in reading; place 0 */
#define GLINTSTRING_WHETHER_ASKED 30            /* the derivation call, the derive call: the request has whether entries; the count
                                                   byte of their list */
#define GLINTSTRING_NO_RULE 31                  /* a line's rule byte is none of 1 to 6, or in the whether call none of 1
                                                   to 8 and 10 to 12; the line */
#define GLINTSTRING_CITES_NO_EARLIER_LINE 32    /* a line cites something that is not a line before it; the citing line */
#define GLINTSTRING_CITATIONS_WRONG 33          /* a line has a number of citations that its rule does not take; the line */
#define GLINTSTRING_DOES_NOT_FOLLOW 34          /* a line does not follow by its rule; the line */
#define GLINTSTRING_NOT_THE_QUESTION 35         /* the last line differs from the question; the last line */
#define GLINTSTRING_CLOSING_NOT_RIGHT 36        /* the closing list has another length than the request asks, and then its count
                                                   byte; or an entry of it names no line or another line than it is to name, and
                                                   then the first such entry */
#define GLINTSTRING_SENSING_TOO_WIDE 37         /* the derive call: a sensing action is met in a state in which more than six of its
                                                   fluents are unknown; the first such item in the order of the walk */
#define GLINTSTRING_TOO_MANY_LINES 38           /* the derive call: the derivation has more than 1,024 lines; place 0 */
#define GLINTSTRING_ROOM_SHORT 39               /* the index call: the room has fewer bytes than the index; the derive call: the
                                                   derivation has more bytes than the room, or more than 32,768; place 0 */
#define GLINTSTRING_GUARD_BROKEN 43             /* the guarded call: a state is met in which a guard is not known true; the first
                                                   such guard */
#define GLINTSTRING_TOO_MANY_CASES 44           /* the call by cases: an action is met in a state in which it has more than 12 open
                                                   fluents; that item */
#define GLINTSTRING_INDEX_DIFFERS 45            /* the indexed call: the index is not that of the request; the first byte that
                                                   differs, or the shorter of both lengths where they are the same so far */
#define GLINTSTRING_SAYS_IS_NOT 46              /* the values call: the literal of an effect says "is not"; its first byte */

/*
 * An answer comes packed into one number: number + 2^8 * input + 2^16 * place + 2^32 * count. These take it apart.
 *
 * The place is the number of bytes that stand before it in its input. The count is that of the walk (actions run and end states judged)
 * for answers 0, 1, 2 and 43 of the walk call, the guarded call, the call by cases, the indexed call and the values call and for 1 and 2
 * of the derive call, the budget for 3, the length of the index for 0 of the index call, that of the derivation for 0 of the derive call,
 * and 0 for all others, which 44, 45, an accepted derivation's 0 and the release call's own 0 are among. The answers in a row are not
 * packed: there each number has its place.
 */
static inline uint8_t glintstring_number(uint64_t answer) { return (uint8_t)(answer & 255u); }
static inline uint8_t glintstring_input(uint64_t answer) { return (uint8_t)((answer >> 8) & 255u); }
static inline uint16_t glintstring_place(uint64_t answer) { return (uint16_t)((answer >> 16) & 65535u); }
static inline uint32_t glintstring_count(uint64_t answer) { return (uint32_t)(answer >> 32); }

/*
 * What an answer's number says, in a few words: a constant string, also for a number that no answer has. Number 0 is "verified";
 * of a derivation a program may rather say "accepted", of the derive call's 0, which says that the plan is verified and its derivation
 * written, "derived", of the release call's own 0, which says nothing of any plan, "answered", and of the index call's 0, which says
 * nothing of the plan either, "indexed".
 */
static inline const char *glintstring_words(unsigned number) {
    switch (number) {
    case GLINTSTRING_VERIFIED: return "verified";
    case GLINTSTRING_GOAL_MISSED: return "goal missed";
    case GLINTSTRING_NOT_EXECUTABLE: return "not executable";
    case GLINTSTRING_BUDGET_SPENT: return "budget spent";
    case GLINTSTRING_STATE_LENGTH_WRONG: return "the lent state or row has another length than it is to have";
    case GLINTSTRING_TOO_LONG: return "too long";
    case GLINTSTRING_INPUT_ENDS: return "the input ends where a byte is due";
    case GLINTSTRING_COUNT_NOT_WITHIN_LIMITS: return "a count is not within its limits";
    case GLINTSTRING_TOO_LARGE: return "a fluent, literal or action is too large";
    case GLINTSTRING_NOT_LARGER: return "an entry is not larger than its predecessor";
    case GLINTSTRING_COMPLEMENT: return "an entry is its predecessor's complement";
    case GLINTSTRING_CONTRADICTORY: return "two effects are contradictory";
    case GLINTSTRING_EFFECTS_AND_KNOWLEDGE: return "an action has effects and knowledge lines";
    case GLINTSTRING_NOT_EXCLUSIVE: return "two conditions are not exclusive";
    case GLINTSTRING_TOO_DEEP: return "a branching stands inside eight others";
    case GLINTSTRING_BYTES_LEFT_OVER: return "bytes are left over";
    case GLINTSTRING_TOO_MANY_ITEMS: return "a plan has too many items";
    case GLINTSTRING_NOT_REACHED: return "not reached";
    case GLINTSTRING_WHETHER_ASKED: return "a derivation for a request with whether entries";
    case GLINTSTRING_NO_RULE: return "a line has no rule";
    case GLINTSTRING_CITES_NO_EARLIER_LINE: return "a line cites what is no line before it";
    case GLINTSTRING_CITATIONS_WRONG: return "a line has a number of citations that its rule does not take";
    case GLINTSTRING_DOES_NOT_FOLLOW: return "a line does not follow by its rule";
    case GLINTSTRING_NOT_THE_QUESTION: return "the last line differs from the question";
    case GLINTSTRING_CLOSING_NOT_RIGHT: return "the closing list is not what the request asks";
    case GLINTSTRING_SENSING_TOO_WIDE: return "too many readings";
    case GLINTSTRING_TOO_MANY_LINES: return "too many lines";
    case GLINTSTRING_ROOM_SHORT: return "room too short";
    case GLINTSTRING_GUARD_BROKEN: return "guard broken";
    case GLINTSTRING_TOO_MANY_CASES: return "too many cases";
    case GLINTSTRING_INDEX_DIFFERS: return "index differs";
    case GLINTSTRING_SAYS_IS_NOT: return "effect that says is not";
    default: return "no answer that the format has";
    }
}

/*
 * The walk call: walks the plan of a request over partial states and judges its goals, counting to `budget` at the most.
 *
 * Promise (proved): for every request, lent state and budget the call ends, and its answer and the lent bytes afterwards are
 * those of the format, each to the last number and byte. Any bytes may be given, of any length; a caller need not have tested
 * anything. The answer is verified (0), goal missed (1), not executable (2) or budget spent (3) exactly where the
 * 0-approximation semantics of Son and Baral gives it, walked in the format's order and within the budget; where it is 0, the
 * plan can be carried out, and reaches its goals, from every world that has the initial facts.
 *
 * The lent state is written by answers 1 and 2 and by no other. Byte f is then 0 where fluent f is unknown, 1 where it is true
 * and 2 where it is false: for 1 in the end state that the place is about, for 2 in the state in which the item could not be
 * run. Bytes from the request's number of fluents up to 127 are then 0. After every other answer the state has the bytes that it
 * had before; where state_length is not 128 the answer is 9.
 *
 * The caller sees to this:
 *   - `request` may be read for request_length bytes, `state` read and written for state_length bytes, and the two do not
 *     overlap. With length 0 any pointer will do, null too: it is not followed.
 *   - there are GLINTSTRING_STACK_NEEDED bytes of free stack. The request decides how many are needed. A call that has too few
 *     is ended by the system, and the process with it. The first thread of a process on Linux has 8 MiB as a rule, which is too
 *     little, and other threads often have less: walk on a thread that is given its size (pthread_attr_setstacksize), and let
 *     it serve many calls.
 * The call keeps no pointer, takes nothing from the heap and has no memory of its own, so threads may call it at one time.
 */
uint64_t glintstring_judge(const uint8_t *request, size_t request_length, uint8_t *state, size_t state_length, uint32_t budget);

/*
 * The walk call with the line: the same answer and the same lent bytes as glintstring_judge gives, and in *line the place of the
 * executability line that was missing (FORMAT 18.9 to 18.14).
 *
 * Promise (proved): *line is written whatever the answer is, and what it held before does not matter. In answer 2 at an action it is
 * the place in the request of the first byte of one of that action's executability lines: of all of them none has fewer literals in its
 * body that are not known true in the state left, and none before it has as few. It is 0 in answer 2 at a branching, at an action that
 * has no executability line, and in every other answer; no line has place 0.
 *
 * The caller sees to the same as for glintstring_judge, and that `line` may be written and overlaps neither of the others.
 */
uint64_t glintstring_judge_line(const uint8_t *request, size_t request_length, uint8_t *state, size_t state_length, uint32_t budget,
                                uint32_t *line);

/*
 * The guarded call: walks the plan of a guarded request, which has a ninth section behind the eight of a request, its guards, a list of
 * 0 to 64 literals (FORMAT 21.2). Each guard is to be known true in every state that the walk meets, which are the first state and
 * every state to which an action leads.
 *
 * Promise (proved): for every request, lent state and budget the call ends, and its answer and the lent bytes afterwards are those of
 * the format, each to the last number and byte. Any bytes may be given, of any length; a caller need not have tested anything. The
 * first state met that lacks a guard ends the walk with guard broken (43), before the next item is taken and before the state is judged
 * as an end state: the place is that of the first guard that it lacks, and the count is that of the walk, the action that leads to the
 * state included. If that action takes the count over the budget, the answer is 3. All else is answered as glintstring_judge answers.
 * Where it is 0, the plan can be carried out, and reaches its goals, from every world that has the initial facts, and the guards hold
 * in every world still possible, at the start, after every action and after every reading.
 *
 * The lent state is written by answers 1, 2 and 43 and by no other, as glintstring_judge writes it; for 43 with the state that lacks
 * the guard. Nothing in the bytes says whether guards follow: glintstring_judge gives 20 to a guarded request, placed at the count of
 * its guards, and this call gives 11 to a request that ends with its eighth section. With no guards, one byte 0 behind a request of
 * less than 16,384 bytes, it answers as glintstring_judge does without that byte.
 *
 * The caller sees to the same as for glintstring_judge, and the call keeps nothing either.
 */
uint64_t glintstring_judge_guarded(const uint8_t *request, size_t request_length, uint8_t *state, size_t state_length, uint32_t budget);

/*
 * The call by cases: walks the plan of a request as glintstring_judge does, except that an action is tried in every complete filling of
 * the state, which gives each unknown fluent one of true and false (FORMAT 22.2). It can be run where it can be run in each filling, by
 * the same line or by others; what is known afterwards is what all the results share. So a plan may be verified here to which
 * glintstring_judge gives 1 or 2. Branchings, goals, whether entries and readings go by what is known, as there.
 *
 * Promise (proved): for every request, lent state and budget the call ends, and its answer and the lent bytes afterwards are those of
 * the format, each to the last number and byte. Any bytes may be given, of any length; a caller need not have tested anything. Where the
 * answer is not 44, it is 0, 1, 2 or 3 exactly where the 1-approximation semantics of Son and Baral gives it, walked in the format's
 * order and within the budget. Where it is 0, the plan can be carried out, and reaches its goals, from every world that has the initial
 * facts. Where glintstring_judge gives 0, this call gives 0 or 44 with the same budget.
 *
 * An action's open fluents are the unknown ones that stand in a body of its effects or of its executability lines. The first action met
 * that has more than 12 of them ends the walk with too many cases (44), before it is asked whether it can be run and before it is
 * counted. Its place is that of the item, its count is 0, and the lent state has the bytes that it had before. So 44 is also given where
 * glintstring_judge would go on. An action adds one to the count however many fillings it was run in, and may take as long as the 4,096
 * fillings of 12 fluents do.
 *
 * The lent state is written by answers 1 and 2 and by no other, as glintstring_judge writes it. The caller sees to the same as for
 * glintstring_judge, and the call keeps nothing either.
 */
uint64_t glintstring_judge_by_cases(const uint8_t *request, size_t request_length, uint8_t *state, size_t state_length, uint32_t budget);

/*
 * The index call: writes the index of a request to a lent room. For each action, from 0 up, an index has a count byte and as many
 * two-byte places with the high byte first, those of the action's effects in the request, and then the same of its executability lines
 * (FORMAT 23.2). It depends on sections 1 to 4 of the request alone, so requests that differ only in plans and goals have one index.
 *
 * Promise (proved): for every request and lent room the call ends, and its answer and the room afterwards are those of the format, each
 * to the last number and byte. Any bytes may be given, of any length; a caller need not have tested anything. The answer is 0 exactly
 * where 10 to 21 do not refuse the request and the room is not shorter than the index. Its count is then the index's length, the room
 * starts with the index, and the bytes behind that are what they were. A request that is refused gets the number and the place that
 * glintstring_judge gives it. Where it is not refused and the room is shorter than the index, the answer is room too short (39), with
 * place and count 0. After every answer but 0 the room has the bytes that it had before.
 *
 * The caller sees to this:
 *   - `request` may be read for request_length bytes, `room` read and written for room_length bytes, and the two do not overlap. With
 *     length 0 any pointer will do, null too: it is not followed.
 *   - there is free stack: GLINTSTRING_STACK_NEEDED bytes are enough by far, since nothing is walked.
 * GLINTSTRING_INDEX_MOST bytes are room for every index. The call keeps no pointer, takes nothing from the heap and has no memory of its
 * own, so threads may call it at one time.
 */
uint64_t glintstring_index(const uint8_t *request, size_t request_length, uint8_t *room, size_t room_length);

/*
 * The indexed call: walks the plan of a request as glintstring_judge does, and finds the lines of an action by an index of the request,
 * which glintstring_index has written. The index does not replace the table: the request is read and tested as by every call, and the
 * index is compared with the one that it should be before anything is walked.
 *
 * Promise (proved): for every request, index, lent state and budget the call ends, and its answer and the lent bytes afterwards are those
 * of the format, each to the last number and byte. Any bytes may be given, of any length; a caller need not have tested anything. With
 * the index of the request every answer, and the lent bytes afterwards, are what glintstring_judge gives. Where the state has 128 bytes,
 * 10 to 21 do not refuse the request and the index is another, the answer is index differs (45). It names GLINTSTRING_INDEX, and its
 * place is that of the first byte that differs, or the shorter of both lengths where all bytes that both have are the same. Its count
 * is 0, and the lent state has the bytes that it had before. As nothing was walked, no budget is too small for it.
 *
 * An index may have any length. Of a file that has one no more than GLINTSTRING_INDEX_MOST + 1 bytes need be read: what stands behind
 * these changes no answer. glintstring_show takes 45 for an answer that names neither of its inputs.
 *
 * The lent state is written by answers 1 and 2 and by no other, as glintstring_judge writes it. The caller sees to the same as for
 * glintstring_judge, and that `index` may be read for index_length bytes and does not overlap the state. The call keeps nothing either.
 */
uint64_t glintstring_judge_indexed(const uint8_t *request, size_t request_length, const uint8_t *index, size_t index_length,
                                   uint8_t *state, size_t state_length, uint32_t budget);

/*
 * The values call: walks the plan of a values request, in which each fluent has 2 to 16 values, known by the numbers from 0 up. Such a
 * request has the eight sections of a request. In the first of them the fluent count is followed by a byte for each fluent, the number of
 * its values (FORMAT 26.2). A literal has two bytes, a fluent f and then 2v for "f is v" or 2v+1 for "f is not v" (FORMAT 26.5), and a
 * fluent of a knowledge line or of the whether list has one byte as ever.
 *
 * Promise (proved): for every request, lent state and budget the call ends, and its answer and the lent bytes afterwards are those of
 * the format, each to the last number and byte. Any bytes may be given, of any length; a caller need not have tested anything. The walk
 * is that of glintstring_judge over states that know one value of a fluent or none: a sensing action leads to a state for each value of
 * each unknown fluent that it senses. Where the answer is 0, the plan can be carried out, and reaches its goals, from every world that
 * gives each fluent one of its values and has the initial facts.
 *
 * An effect whose literal says "is not" is refused by 46, at the literal's first byte. Every other refusal has a number that
 * glintstring_judge gives too. A partial state does not know what a fluent is not: a fluent of three values of which only "is not 0" is
 * said is unknown, and a goal that says the same is missed (FORMAT 26.17 and 26.18).
 *
 * The lent state is written by answers 1 and 2 and by no other. Byte f is then 0 where fluent f is unknown, and v + 1 where it is known to
 * be v, in the state that the answer is about, as with glintstring_judge. Bytes from the request's number of fluents up to 127 are then 0.
 * Nothing in the bytes says whether a request is a values request: the other calls take none. The caller sees to the same as for
 * glintstring_judge, and the call keeps nothing either.
 */
uint64_t glintstring_judge_values(const uint8_t *request, size_t request_length, uint8_t *state, size_t state_length, uint32_t budget);

/*
 * The derivation call: checks a derivation, line by line, of what a request asks.
 *
 * Promise (proved): for every request and derivation the call ends, and its answer is that of the format, to the last number.
 * Any bytes may be given, of any length; a caller need not have tested anything. The answer is accepted (0) exactly where
 * neither input is refused by 10 to 21, the request has no whether entry, each line follows by its rule from lines before it,
 * and the last line is the question: the initial facts, the plan and the goals. Where it is accepted, the walk of the plan,
 * without a budget, is verified, and the plan can be carried out, and reaches its goals, from every world that has the initial
 * facts.
 *
 * The request is tested first, then that it asks no whether entry (30), then the derivation. There is no budget: a derivation
 * can be short where the walk is too long to be walked. For a request with whether entries there is the whether call.
 *
 * The caller sees to this:
 *   - `request` may be read for request_length bytes and `derivation` for derivation_length bytes; nothing is written, and the
 *     two may overlap. With length 0 any pointer will do, null too: it is not followed.
 *   - there is free stack: GLINTSTRING_STACK_NEEDED bytes are enough by far, since the call goes no deeper than the 128
 *     fluents of a reading and eight branchings, however long the derivation is.
 * The call keeps no pointer, takes nothing from the heap and has no memory of its own, so threads may call it at one time.
 */
uint64_t glintstring_check(const uint8_t *request, size_t request_length, const uint8_t *derivation, size_t derivation_length);

/*
 * The whether call: checks a derivation of what a request asks, its whether entries included. Its derivations have the closing
 * layout (FORMAT 17.3 to 17.8). There the rule byte stands before the conclusion. After rules 7, 8, 10, 11 and 12 the conclusion
 * is a fluent, and the line claims that it is known at each end, be it true or false there. After the lines a closing list names
 * a line for the goals and then one for each whether entry.
 *
 * Promise (proved): for every request and derivation the call ends, and its answer is that of the format, to the last number.
 * Any bytes may be given, of any length; a caller need not have tested anything. The answer is accepted (0) exactly where
 * neither input is refused by 10 to 21, each line follows by its rule from lines before it, and the closing list has one entry
 * more than the whether list: first a line of the initial facts, the plan and the goals, then for each whether entry, in their
 * order, a line of the initial facts, the plan and that fluent. Where it is accepted, the walk of the plan, without a budget, is
 * verified, and the plan can be carried out, reaches its goals and leaves every whether fluent known, from every world that has
 * the initial facts.
 *
 * The request is tested first, then the derivation, and last the closing list (36). It never gives 30 or 35. The caller sees to
 * the same as for the derivation call, and the call keeps nothing either.
 */
uint64_t glintstring_check_whether(const uint8_t *request, size_t request_length, const uint8_t *derivation,
                                   size_t derivation_length);

/*
 * The derive call: walks the plan of a request as glintstring_judge does, counting to `budget` at the most, and where that verifies the
 * plan writes a derivation of what the request asks to a lent room, `out`. It is a derivation in the plain layout, which glintstring_check
 * takes: its lines follow the walk, by rules 1 to 6, in the order of FORMAT 24.5 to 24.10.
 *
 * Promise (proved): for every request, lent room and budget the call ends, and its answer and the room afterwards are those of the
 * format, each to the last number and byte. Any bytes may be given, of any length; a caller need not have tested anything. The answer is
 * derived (0) exactly where 10 to 21 do not refuse the request, it has no whether entry, the walk verifies the plan within the budget, no
 * sensing action that the walk meets has more than six unknown fluents there, and the derivation has at most 1,024 lines and at most
 * 32,768 bytes, and the room has as many. Its count is then the derivation's length, the room starts with the derivation, and the bytes
 * behind that are what they were. glintstring_check accepts what was written, for the same request.
 *
 * The tests are made in this order. A request that 10 to 21 refuse gets the number and the place that glintstring_judge gives it. One
 * with whether entries gets 30. Then the plan is walked: answers 1, 2 and 3 are those of glintstring_judge, with its place and count, and
 * there is no state. Then come too many readings (37), too many lines (38) and room too short (39), each with count 0. These three say
 * nothing against the plan: the walk verifies it. After every answer but 0 the room has the bytes that it had before.
 *
 * The caller sees to this:
 *   - `request` may be read for request_length bytes, `out` read and written for out_length bytes, and the two do not overlap. With
 *     length 0 any pointer will do, null too: it is not followed.
 *   - there are GLINTSTRING_STACK_NEEDED bytes of free stack, as for glintstring_judge.
 * GLINTSTRING_DERIVATION_LIMIT bytes are room for every derivation that is written. The call keeps no pointer, takes nothing from the heap
 * and has no memory of its own, so threads may call it at one time.
 */
uint64_t glintstring_derive(const uint8_t *request, size_t request_length, uint8_t *out, size_t out_length, uint32_t budget);

/*
 * The release call: answers every plan of a release file, which has the table and the initial facts of a request once (sections 1 to
 * 5), a byte that counts its plans, from 1 to 64, and then the plan, the goals and the whether entries of each (FORMAT 19.2).
 *
 * Promise (proved): for every file, lent row and budget the call ends, and its own answer and the row afterwards are those of
 * the format, each to the last number. Any bytes may be given, of any length; a caller need not have tested anything. The call's
 * own answer is about what all plans share: the file's length, the table, the plan count, the row's length, and bytes that are left
 * over after the last plan. It is 0 where nothing is wrong with these, whatever the plans get. It is also 0 where a plan fails in
 * reading: then no byte after that plan is looked at.
 *
 * The row is written where the call's own answer is 0, and stays as lent with every other. Plan k, from 0 up, has number, place,
 * count and input in row[4 * k] to row[4 * k + 3]. They are what glintstring_judge answers, with the same budget, to sections 1 to 5
 * followed by that plan alone, except that a place of input 1 is counted in the release file. So every plan has the whole budget,
 * and a plan that gets 1, 2, 3 or 18 stops no other. A plan that fails in reading has its fault in the row, and every plan after it
 * has 22, with place, count and input 0.
 *
 * The caller sees to this:
 *   - `file` may be read for file_length bytes, `row` read and written for row_length numbers of 32 bits, and the two do not overlap.
 *     With length 0 any pointer will do, null too: it is not followed.
 *   - row_length is four times what glintstring_plans gives. With another length a file that has plans is answered by 9.
 *     GLINTSTRING_ROW_NUMBERS * GLINTSTRING_MOST_PLANS numbers are room for every file; only as many of them are lent.
 *   - there are GLINTSTRING_STACK_NEEDED bytes of free stack, as for glintstring_judge.
 * No state is lent. The call keeps no pointer, takes nothing from the heap and has no memory of its own, so threads may call it at one
 * time.
 */
uint64_t glintstring_release(const uint8_t *file, size_t file_length, uint32_t *row, size_t row_length, uint32_t budget);

/*
 * The plans call: how many plans a release file has, so that its caller knows how long a row to lend.
 *
 * Promise (proved): for every file the call ends and gives the file's plan count, which is from 1 to 64; or 0 where the release
 * call refuses the file before its plans are counted, by 10 or by a fault in sections 1 to 5 or in the count. A row of four times
 * that many numbers is never refused by 9. Where the number is 0, the release call says what the fault is, whatever row is lent.
 *
 * The same goes for the pointer as for the release call. The call needs little stack, and keeps nothing either.
 */
uint32_t glintstring_plans(const uint8_t *file, size_t file_length);

/*
 * The showing call: where the part starts that a packed answer is about, in the input that it names. The part goes on to that
 * input's end.
 *
 * Promise (proved): for every answer, of any call or made by hand, and every two inputs, the call ends and gives that start
 * as the format has it. Where glintstring_input(answer) is GLINTSTRING_REQUEST or GLINTSTRING_DERIVATION it is a place of the
 * request or of the derivation: the answer's own, or the input's length where the answer's place is beyond its end. For every
 * other answer it is 0, and the part is the empty one at the request's start. The start is never larger than the length of the
 * input concerned. The number and the count are not looked at. Of an answer of the release call the file stands for the request.
 *
 * The same goes for the pointers as for the derivation call; no byte of either input is read.
 */
uint64_t glintstring_show(uint64_t answer, const uint8_t *request, size_t request_length, const uint8_t *derivation,
                          size_t derivation_length);

#ifdef __cplusplus
}
#endif

#endif
