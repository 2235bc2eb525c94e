/* Unison for C: synchronous programs on networks. Each call goes from texts, or the lists of a network, to an answer, keeps
 * nothing, and starts no thread; several threads may call at once.
 *
 * A call answers 0 where it was done, else the number of the first fault on the way (enum unison_fault). What each call
 * writes, and that nothing else is written, is proved: docs/library.md has the clauses in plain words.
 *
 * What a text is stands in docs/language.md (programs), docs/models.md (models) and docs/formats.md (networks, reports,
 * schedules). A text is so many bytes; no byte needs to end it.
 *
 * What a caller owes, and nothing checks:
 *   - no pointer is null, also where the length after it is 0;
 *   - each pointer to read from has so many bytes (of uint32_t and uint64_t: so many numbers) as the length after it says, each
 *     pointer to write to so many as the room or length after it says, and a pointer without a length one value;
 *   - nothing that is written overlaps anything else that is given to the call;
 *   - while a call runs no other thread writes what is given to it, or reads what the call writes;
 *   - no call is made from a signal handler, or in the forked child of a process with threads;
 *   - malloc, realloc and free of the process are of one allocator. */
#ifndef UNISON_H
#define UNISON_H

#include <stddef.h>
#include <stdint.h>

#ifdef __cplusplus
extern "C" {
#endif

/* Why a call was not done: the first fault on the way from the texts to the answer. The names after UNISON_ are those of the
 * fault lines in docs/formats.md, part and name. */
enum unison_fault {
    /* Made from library/faults.toml by library/faults: */
    UNISON_MEMORY = 1,     /* out of memory, which may come anywhere */
    UNISON_ROOM = 2,       /* there is too little room for an answer; its sizes are set */
    UNISON_NEVER = 3,      /* never: the proved clauses leave no fault of this number */
    UNISON_NOT_RISING = 4, /* a round of the list is not above the one before it */
    UNISON_NO_JOB = 5,     /* there is no job of this number */

    UNISON_PROGRAM_TOO_LONG = 16,
    UNISON_PROGRAM_LEX = 17,
    UNISON_PROGRAM_SYNTAX = 18,
    UNISON_PROGRAM_TOO_MANY_FIELDS = 32,
    UNISON_PROGRAM_FIELD_TWICE = 33,
    UNISON_PROGRAM_NEXT_TWICE = 34,
    UNISON_PROGRAM_UNKNOWN_NAME = 35,
    UNISON_PROGRAM_NEIGHBOUR_OUTSIDE = 36,
    UNISON_PROGRAM_NESTED_AGGREGATE = 37,
    UNISON_PROGRAM_TOO_MANY_AGGREGATES = 38,

    UNISON_NETWORK_NOT_TOML = 48,
    UNISON_NETWORK_UNKNOWN_KEY = 49,
    UNISON_NETWORK_BAD_SHAPE = 50,
    UNISON_NETWORK_NODE_COUNT = 51,
    UNISON_NETWORK_BAD_LINK = 52,
    UNISON_NETWORK_SELF_LINK = 53,
    UNISON_NETWORK_LINK_TWICE = 54,
    UNISON_NETWORK_TOO_MANY_LINKS = 55,
    UNISON_NETWORK_TOO_MANY_NEIGHBOURS = 56,
    UNISON_NETWORK_BAD_PHASE = 57,
    UNISON_NETWORK_BAD_WEIGHT = 58,

    UNISON_PLAN_UNKNOWN_FIELD = 64,
    UNISON_PLAN_BAD_NODE = 65,
    UNISON_PLAN_BAD_VALUE = 66,
    UNISON_PLAN_SET_TWICE = 67,

    UNISON_RUN_TOO_MANY_ROUNDS = 80,
    UNISON_RUN_ROUNDS_BELOW_START = 81,

    UNISON_SCHEDULE_BAD_LINE = 96,
    UNISON_SCHEDULE_TOO_MANY_STEPS = 97,
    UNISON_RUN_STOP_TOO_LARGE = 98,
    UNISON_RUN_STOP_BELOW_START = 99,

    UNISON_REPORT_BAD_LINE = 112,
    UNISON_REPORT_TOO_MANY_ROUNDS = 113,

    UNISON_PROGRAM_READS_ROUND = 128, /* unison_settle alone */
    UNISON_LIMIT_TOO_LARGE = 129,
    UNISON_LIMIT_BELOW_START = 130,

    UNISON_LISTS_NODE_COUNT = 144,          /* calls on lists alone, to 153 */
    UNISON_LISTS_OFFSETS = 145,
    UNISON_LISTS_TOO_MANY_NEIGHBOURS = 146,
    UNISON_LISTS_NEIGHBOUR = 147,
    UNISON_LISTS_WEIGHT_COUNT = 148,
    UNISON_LISTS_WORD_COUNT = 149,          /* unison_large_rounds, unison_large_watch and unison_large_counts, which set *fields, and unison_part_round */
    UNISON_LISTS_NUMBER_COUNT = 150,        /* unison_part_round alone, to 151 */
    UNISON_LISTS_ROOM_COUNT = 151,
    UNISON_LISTS_NO_FIELD = 152,            /* unison_large_counts alone, which sets *fields, to 153 */
    UNISON_LISTS_TOO_MANY_VALUES = 153,

    UNISON_MODEL_TOO_LONG = 160,            /* unison_expand alone, to 194 */
    UNISON_MODEL_LEX = 161,
    UNISON_MODEL_SYNTAX = 162,
    UNISON_MODEL_TOO_MANY_FIELDS = 163,
    UNISON_MODEL_TOO_MANY_STATES = 164,
    UNISON_MODEL_NAME_TWICE = 165,
    UNISON_MODEL_NEXT_TWICE = 166,
    UNISON_MODEL_NO_FIELD = 167,
    UNISON_MODEL_UNKNOWN_STATES = 168,
    UNISON_MODEL_UNKNOWN_GIVEN = 169,
    UNISON_MODEL_UNKNOWN_NAME = 170,
    UNISON_MODEL_UNKNOWN_NEAR = 171,
    UNISON_MODEL_WRONG_COUNT = 172,
    UNISON_MODEL_WRONG_ARGUMENTS = 173,
    UNISON_MODEL_NEIGHBOUR_OUTSIDE = 174,
    UNISON_MODEL_NESTED_AGGREGATE = 175,
    UNISON_MODEL_NOT_SEEN = 176,
    UNISON_MODEL_RING = 177,
    UNISON_MODEL_NOT_CONSTANT = 178,
    UNISON_MODEL_OUT_OF_RANGE = 179,
    UNISON_MODEL_NO_STATE = 180,
    UNISON_MODEL_TOO_DEEP = 181,
    UNISON_MODEL_TOO_MANY_AGGREGATES = 182,

    UNISON_CONSTANTS_NOT_UTF8 = 192,
    UNISON_CONSTANTS_UNENDED = 193,
    UNISON_CONSTANTS_VALUE_COUNT = 194
    /* (end of what is made) */
};

/* What becomes of the rounds (unison_settle). */
enum unison_manner {
    UNISON_SETTLES = 1, /* from *round on no state changes, and before it each round changed one */
    UNISON_REPEATS = 2, /* from *round on the states come again after *period rounds, two or more, and no earlier */
    UNISON_OPEN = 3     /* up to *round, the limit, all states of a round are other than those of any round before */
};

/* What unison_why looks at. */
enum unison_job {
    UNISON_JOB_CHECK = 1,    /* the program alone */
    UNISON_JOB_LOCKSTEP = 2, /* program, network, report to go on from; number is the round */
    UNISON_JOB_REPLAY = 3    /* the same and the schedule; number is the stop */
};

/* The canonical spelling of a program, at the front of text; *text_len is how many bytes it has, which is set where the answer
 * is 0 or UNISON_ROOM. */
uint32_t unison_check(const uint8_t *program, size_t program_len, uint8_t *text, size_t text_room, size_t *text_len);

/* The program that a model is expanded to, which all other calls take as a program, at the front of text, as `unison expand` prints
 * it; *text_len is how many bytes it has, up to 65,536, which is set where the answer is 0 or UNISON_ROOM. names has the names of
 * the constants that are set, an LF after each, also after the last, and values their values in the same order; of a name that
 * stands there twice the first value counts. With names_len and values_len 0 the model's constants are as it says. The first fault
 * is UNISON_MODEL_TOO_LONG where the model has more than 65,536 bytes; else that of names and values, UNISON_CONSTANTS_NOT_UTF8,
 * UNISON_CONSTANTS_UNENDED or UNISON_CONSTANTS_VALUE_COUNT; else that of the model, UNISON_MODEL_UNKNOWN_GIVEN where it has no
 * constant of a name; else UNISON_ROOM. Where a fault of the model lies, and what to do, `unison expand` tells. */
uint32_t unison_expand(const uint8_t *model, size_t model_len, const uint8_t *names, size_t names_len, const uint32_t *values,
                       size_t values_len, uint8_t *text, size_t text_room, size_t *text_len);

/* The words of all fields of all nodes after a round, node by node, at the front of words: *nodes times *fields of them, the
 * word of field k of node u at u * *fields + k. *nodes and *fields are set where the answer is 0 or UNISON_ROOM; where there is
 * too little room no round is computed, so a first call with words_room 0 asks for the sizes.
 * from is the text of a report to go on from; with from_len 0 the rounds begin at round 0. round counts from round 0, up to
 * 1,000,000,000. */
uint32_t unison_lockstep(const uint8_t *program, size_t program_len, const uint8_t *network, size_t network_len,
                         const uint8_t *from, size_t from_len, uint32_t round, uint32_t *words, size_t words_room,
                         uint32_t *nodes, uint32_t *fields);

/* The words of each of these rounds, one round after the other, at the front of words: rounds_len times *nodes times *fields
 * of them, all in one pass over the rounds. Each round of the list is above the one before it. All else is as with
 * unison_lockstep; with rounds_len 0 no words are written, and *nodes and *fields are set. */
uint32_t unison_watch(const uint8_t *program, size_t program_len, const uint8_t *network, size_t network_len,
                      const uint8_t *from, size_t from_len, const uint32_t *rounds, size_t rounds_len, uint32_t *words,
                      size_t words_room, uint32_t *nodes, uint32_t *fields);

/* What becomes of the rounds up to a limit, a round counted from round 0: *manner is one of enum unison_manner, which says what
 * *round and *period are; where there is no period it is 0. The three are set where the answer is 0 alone. */
uint32_t unison_settle(const uint8_t *program, size_t program_len, const uint8_t *network, size_t network_len,
                       const uint8_t *from, size_t from_len, uint32_t limit, uint32_t *manner, uint32_t *round,
                       uint32_t *period);

/* What stands there after the steps of a schedule, made in order, where no node moves past the stop: the replay report at the
 * front of report; how often each node has moved, the rounds before the start included, node by node at the front of counts,
 * *nodes of them; and the words that the nodes show, as unison_lockstep lays them out, at the front of words. *report_len,
 * *nodes and *fields are set where the answer is 0 or UNISON_ROOM, which comes where one of the three rooms is too small: then
 * none of the three is written. */
uint32_t unison_replay(const uint8_t *program, size_t program_len, const uint8_t *network, size_t network_len,
                       const uint8_t *from, size_t from_len, const uint8_t *schedule, size_t schedule_len, uint32_t stop,
                       uint8_t *report, size_t report_room, size_t *report_len, uint32_t *counts, size_t counts_room,
                       uint32_t *words, size_t words_room, uint32_t *nodes, uint32_t *fields);

/* Why a job (enum unison_job) is not done on these texts: *fault is the number (enum unison_fault) of the first fault with which
 * the job would end, and 0 where nothing refuses it; at the front of text stands what is told people of it, as `unison why` tells
 * it, in UTF-8: what is wrong, where, and what to do; or that nothing is wrong. No round is computed, and no step made. Texts that
 * the job does not read are not looked at. The texts are called program, network, report and schedule. *fault is set where the
 * answer is 0 alone, *text_len where it is 0 or UNISON_ROOM. */
uint32_t unison_why(uint32_t job, const uint8_t *program, size_t program_len, const uint8_t *network, size_t network_len,
                    const uint8_t *from, size_t from_len, const uint8_t *schedule, size_t schedule_len, uint32_t number,
                    uint32_t *fault, uint8_t *text, size_t text_room, size_t *text_len);

/* Networks of any size, as three lists: the neighbours of node u are neighbours[offsets[u]] up to, and without,
 * neighbours[offsets[u + 1]], and weights has the weight of each link at the same place. There is one offset more than there are
 * nodes, 1 to 4,294,967,295 of these. Links may lead one way, join a node with itself, and stand several times. With weights_len 0
 * each weight is 1; the pointer is not null even so. Nothing is written into the lists. */

/* Whether three lists are such a network: 0, or the number of the first fault, and *place, which is set only then:
 *   UNISON_LISTS_NODE_COUNT           how many nodes there are: one fewer than offsets
 *   UNISON_LISTS_WEIGHT_COUNT         how many weights there are
 *   UNISON_LISTS_OFFSETS              the first place in offsets at which the first is not 0, the next is lower, or the last is not
 *                                     neighbours_len
 *   UNISON_LISTS_TOO_MANY_NEIGHBOURS  the first node that has more than 4,294,967,295 neighbours
 *   UNISON_LISTS_NEIGHBOUR            the first place in neighbours at which no node stands
 * No memory is taken. */
uint32_t unison_large_check(const uint64_t *offsets, size_t offsets_len, const uint32_t *neighbours, size_t neighbours_len,
                            const uint32_t *weights, size_t weights_len, size_t *place);

/* The words of all fields of all nodes after a round, in place of those after an earlier round, start: words has the word of field
 * k of node u at u * *fields + k, before and after. words_len is the number of nodes times that of fields; where it is not, the
 * answer is UNISON_LISTS_WORD_COUNT, and no round is computed. *fields is set then, and where the answer is 0. So a call with
 * words_len 0 asks how many fields there are; unison_lockstep on a network of one node tells what they open with. Both rounds
 * count from round 0, up to 1,000,000,000; a later call that begins with the words and the round of an earlier one goes on from
 * there. The lists are looked at as by unison_large_check, which tells the place of their fault. The call makes the rounds in the
 * thread that it is made in; while it runs it has 32 bytes for each node twice, 8 for each node and field, and the neighbours
 * and weights a second time. */
uint32_t unison_large_rounds(const uint8_t *program, size_t program_len, const uint64_t *offsets, size_t offsets_len,
                             const uint32_t *neighbours, size_t neighbours_len, const uint32_t *weights, size_t weights_len,
                             uint32_t start, uint32_t round, uint32_t *words, size_t words_len, uint32_t *fields);

/* The words after each of these rounds, one round after the other, at the front of words: rounds_len times from_len of them, all
 * in one pass over the rounds. from has the words of all nodes after an earlier round, start, as unison_large_rounds lays them out;
 * each round of the list is above the one before it, and the first may be the start. from_len is the number of nodes times that
 * of fields; where it is not, the answer is UNISON_LISTS_WORD_COUNT, and where words_room is too little for the words of all rounds
 * it is UNISON_ROOM; no round is computed then. *fields is set in both cases, and where the answer is 0. With rounds_len 0 no words
 * are written. The first fault is that of the program, of the lists, of the rounds (the first bad one: above 1,000,000,000, below
 * the start, or not above the one before it), of from_len, of words_room, in this order. While the call runs it has what
 * unison_large_rounds has, and the words of all rounds once more, since it writes nothing where memory runs out. */
uint32_t unison_large_watch(const uint8_t *program, size_t program_len, const uint64_t *offsets, size_t offsets_len,
                            const uint32_t *neighbours, size_t neighbours_len, const uint32_t *weights, size_t weights_len,
                            uint32_t start, const uint32_t *from, size_t from_len, const uint32_t *rounds, size_t rounds_len,
                            uint32_t *words, size_t words_room, uint32_t *fields);

/* How many nodes have each of some values in a field after each of these rounds, at the front of counts, one round after the
 * other: values_len numbers in the order of the values, and last how many nodes have none of them; so rounds_len times
 * values_len + 1 of them, all in one pass over the rounds, of which no words are laid out. field counts from 0 in order of
 * declaration; there are 256 values at most, and a value may stand there twice. The program, the lists, start, from and rounds are
 * as with unison_large_watch, and so are the faults and their order: after that of from_len come UNISON_LISTS_NO_FIELD where the
 * program lacks the field, UNISON_LISTS_TOO_MANY_VALUES, and UNISON_ROOM where counts_room is too little for the counts of all
 * rounds. *fields is set with these, with UNISON_LISTS_WORD_COUNT, and where the answer is 0; no round is computed unless it is 0.
 * With rounds_len 0 no counts are written. While the call runs it has what unison_large_rounds has, the counts of all rounds once
 * more, and 4 bytes for each node. */
uint32_t unison_large_counts(const uint8_t *program, size_t program_len, const uint64_t *offsets, size_t offsets_len,
                             const uint32_t *neighbours, size_t neighbours_len, const uint32_t *weights, size_t weights_len,
                             uint32_t start, const uint32_t *from, size_t from_len, const uint32_t *rounds, size_t rounds_len,
                             uint32_t field, const uint32_t *values, size_t values_len, uint32_t *counts, size_t counts_room,
                             uint32_t *fields);

/* The words of a part's own nodes after the step from a round, for engines that split a network and keep the states themselves:
 * the part has its own nodes and, after them, those that are only neighbours of them. ids has the number of each of these nodes
 * in the whole network, which is what the program sees as id; the lists have the neighbours of each by their places in the part,
 * and what neighbours the nodes after have plays no part. from has the words of all nodes of the part before the round, node by
 * node; to takes those of the own nodes after it, and to_len, their number times that of fields, says how many these are.
 * *changed is how many of them have another state then; it is set where the answer is 0 alone. round is the number of the round
 * that from has, counted from round 0, which is what the program sees as round. Where each own node has all its neighbours and
 * weights, and each node the state that it has in the whole network, the new words are those of a round of the whole. */
uint32_t unison_part_round(const uint8_t *program, size_t program_len, const uint32_t *ids, size_t ids_len,
                           const uint64_t *offsets, size_t offsets_len, const uint32_t *neighbours, size_t neighbours_len,
                           const uint32_t *weights, size_t weights_len, uint32_t round, const uint32_t *from, size_t from_len,
                           uint32_t *to, size_t to_len, size_t *changed);

#ifdef __cplusplus
}
#endif

#endif
