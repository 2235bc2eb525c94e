/* Calls all exports on texts drawn by a seed, whole and damaged, with rooms of all sizes, in one process.
 *
 *     hammer SEED CALLS FILE..
 *
 * The files are programs (.rules), models (.model) and networks (.toml). After each call it looks at the answer, which has to be 0 or a number of
 * enum unison_fault; at the bytes before and behind each memory that was given, which have to be as they were; at what a call that
 * was not done may not write; at what stands behind what a call that was done wrote; and whether the fault that unison_why tells
 * is the answer of the job itself. At the end it prints how often each answer came, and how much memory the process has after a
 * tenth of the calls and after all of them, which may be little more where there were many calls. Its status is 0 where all was
 * right. */
#include "unison.h"

#include <stdio.h>
#include <stdlib.h>
#include <string.h>

enum { GUARD = 64, MOST_TEXTS = 64, MOST_BYTES = 4096, MOST_WORDS = 4096, MOST_ROUNDS = 8, MANY_CALLS = 100000, PATTERN = 0xA5 };

static uint64_t state;

/* The next number of the seed (xorshift64*). */
static uint64_t draw(void) {
    state ^= state >> 12;
    state ^= state << 25;
    state ^= state >> 27;
    return state * UINT64_C(2685821657736338717);
}

static size_t below(size_t bound) { return bound ? (size_t)(draw() % bound) : 0; }

static int chance(size_t of) { return below(of) == 0; }

struct text {
    uint8_t *bytes;
    size_t len;
};

static struct text programs[MOST_TEXTS], models[MOST_TEXTS], networks[MOST_TEXTS];
static size_t program_count, model_count, network_count;
static uint64_t seen[256];
static unsigned long long call_number;

static void fail(const char *what, const char *call) {
    printf("FAILED: call %llu, %s: %s\n", call_number, call, what);
    exit(1);
}

static struct text read_file(const char *path) {
    static uint8_t bytes[1 << 16];
    FILE *file = fopen(path, "rb");
    if (!file) {
        perror(path);
        exit(2);
    }
    struct text text = {NULL, fread(bytes, 1, sizeof bytes, file)};
    fclose(file);
    text.bytes = malloc(text.len + 1);
    if (!text.bytes) exit(2);
    memcpy(text.bytes, bytes, text.len);
    return text;
}

/* A memory between two guards: its bytes are the pattern before the call. */
struct guarded {
    uint8_t *block;
    size_t len;
};

static struct guarded guarded(size_t len) {
    struct guarded memory = {malloc(len + 2 * GUARD), len};
    if (!memory.block) exit(2);
    memset(memory.block, PATTERN, len + 2 * GUARD);
    return memory;
}

/* A text to read from, of exactly its length, so that valgrind sees what reads past it. */
static struct guarded copied(struct text text) {
    struct guarded memory = guarded(text.len);
    memcpy(memory.block + GUARD, text.bytes, text.len);
    return memory;
}

static uint8_t *inside(struct guarded memory) { return memory.block + GUARD; }

static int is_pattern(const uint8_t *bytes, size_t len) {
    for (size_t i = 0; i < len; i++)
        if (bytes[i] != PATTERN) return 0;
    return 1;
}

/* The guards are as they were, and so is what stands behind the first `written` bytes. */
static void check_memory(struct guarded memory, size_t written, const char *call) {
    if (!is_pattern(memory.block, GUARD)) fail("wrote before a memory", call);
    if (written > memory.len) fail("a size above the room", call);
    if (!is_pattern(inside(memory) + written, memory.len - written + GUARD)) fail("wrote behind its answer", call);
    free(memory.block);
}

/* The text is as it was. */
static void check_text(struct guarded memory, struct text text, const char *call) {
    if (memcmp(inside(memory), text.bytes, text.len) != 0) fail("wrote into a text", call);
    check_memory(memory, text.len, call);
}

/* The answer is one that the header names. */
static void check_answer(uint32_t answer, const char *call) {
    static const uint8_t named[] = {
        0, UNISON_ROOM, UNISON_NOT_RISING, UNISON_NO_JOB, UNISON_PROGRAM_TOO_LONG, UNISON_PROGRAM_LEX, UNISON_PROGRAM_SYNTAX,
        UNISON_PROGRAM_TOO_MANY_FIELDS, UNISON_PROGRAM_FIELD_TWICE, UNISON_PROGRAM_NEXT_TWICE, UNISON_PROGRAM_UNKNOWN_NAME,
        UNISON_PROGRAM_NEIGHBOUR_OUTSIDE, UNISON_PROGRAM_NESTED_AGGREGATE, UNISON_PROGRAM_TOO_MANY_AGGREGATES,
        UNISON_NETWORK_NOT_TOML, UNISON_NETWORK_UNKNOWN_KEY, UNISON_NETWORK_BAD_SHAPE, UNISON_NETWORK_NODE_COUNT,
        UNISON_NETWORK_BAD_LINK, UNISON_NETWORK_SELF_LINK, UNISON_NETWORK_LINK_TWICE, UNISON_NETWORK_TOO_MANY_LINKS,
        UNISON_NETWORK_TOO_MANY_NEIGHBOURS, UNISON_NETWORK_BAD_PHASE, UNISON_NETWORK_BAD_WEIGHT, UNISON_PLAN_UNKNOWN_FIELD,
        UNISON_PLAN_BAD_NODE, UNISON_PLAN_BAD_VALUE, UNISON_PLAN_SET_TWICE, UNISON_RUN_TOO_MANY_ROUNDS,
        UNISON_RUN_ROUNDS_BELOW_START, UNISON_SCHEDULE_BAD_LINE, UNISON_SCHEDULE_TOO_MANY_STEPS, UNISON_RUN_STOP_TOO_LARGE,
        UNISON_RUN_STOP_BELOW_START, UNISON_REPORT_BAD_LINE, UNISON_REPORT_TOO_MANY_ROUNDS, UNISON_PROGRAM_READS_ROUND,
        UNISON_LIMIT_TOO_LARGE, UNISON_LIMIT_BELOW_START, UNISON_LISTS_NODE_COUNT, UNISON_LISTS_OFFSETS, UNISON_LISTS_NEIGHBOUR,
        UNISON_LISTS_WEIGHT_COUNT, UNISON_LISTS_WORD_COUNT, UNISON_LISTS_NUMBER_COUNT, UNISON_LISTS_ROOM_COUNT, UNISON_LISTS_NO_FIELD, UNISON_LISTS_TOO_MANY_VALUES,
        UNISON_MODEL_TOO_LONG, UNISON_MODEL_LEX, UNISON_MODEL_SYNTAX, UNISON_MODEL_TOO_MANY_FIELDS, UNISON_MODEL_TOO_MANY_STATES,
        UNISON_MODEL_NAME_TWICE, UNISON_MODEL_NEXT_TWICE, UNISON_MODEL_NO_FIELD, UNISON_MODEL_UNKNOWN_STATES, UNISON_MODEL_UNKNOWN_GIVEN,
        UNISON_MODEL_UNKNOWN_NAME, UNISON_MODEL_UNKNOWN_NEAR, UNISON_MODEL_WRONG_COUNT, UNISON_MODEL_WRONG_ARGUMENTS,
        UNISON_MODEL_NEIGHBOUR_OUTSIDE, UNISON_MODEL_NESTED_AGGREGATE, UNISON_MODEL_NOT_SEEN, UNISON_MODEL_RING, UNISON_MODEL_NOT_CONSTANT,
        UNISON_MODEL_OUT_OF_RANGE, UNISON_MODEL_NO_STATE, UNISON_MODEL_TOO_DEEP, UNISON_MODEL_TOO_MANY_AGGREGATES,
        UNISON_CONSTANTS_NOT_UTF8, UNISON_CONSTANTS_UNENDED, UNISON_CONSTANTS_VALUE_COUNT};
    for (size_t i = 0; i < sizeof named; i++) {
        if (answer == named[i]) {
            seen[answer]++;
            return;
        }
    }
    fail("an answer with no name", call);
}

/* The text, in two of three calls whole, else with some bytes changed, cut out, put in or cut off. */
static struct text damaged(struct text text, int whole) {
    static const char bytes[] = "0123456789[](){};,=.nxid \n#\"+-*<>&|ABCmost\377";
    struct text made = {malloc(text.len + 64), text.len};
    if (!made.bytes) exit(2);
    memcpy(made.bytes, text.bytes, text.len);
    if (whole) return made;
    for (size_t times = 1 + below(4); times; times--) {
        size_t at = below(made.len + 1);
        size_t left = made.len - at;
        uint8_t byte = (uint8_t)bytes[below(sizeof bytes - 1)];
        switch (below(5)) {
        case 0:
            if (left) made.bytes[at] = byte;
            break;
        case 1:
            memmove(made.bytes + at + 1, made.bytes + at, left);
            made.bytes[at] = byte;
            made.len++;
            break;
        case 2:
            if (left) {
                size_t out = 1 + below(left < 8 ? left : 8);
                memmove(made.bytes + at, made.bytes + at + out, left - out);
                made.len -= out;
            }
            break;
        case 3:
            if (chance(4)) made.len = at;
            break;
        default:
            if (left) made.bytes[at] = (uint8_t)draw();
        }
    }
    return made;
}

/* Lines of a schedule, most of them sound. */
static struct text schedule(void) {
    struct text made = {malloc(MOST_BYTES), 0};
    if (!made.bytes) exit(2);
    for (size_t lines = below(40); lines; lines--) {
        char *at = (char *)made.bytes + made.len;
        unsigned node = (unsigned)below(chance(20) ? 70000 : 6), slot = (unsigned)below(chance(20) ? 5000 : 4);
        if (chance(2))
            made.len += (size_t)sprintf(at, "read %u %u\n", node, slot);
        else
            made.len += (size_t)sprintf(at, "write %u\n", node);
        if (chance(400)) made.len += (size_t)sprintf((char *)made.bytes + made.len, "raed 0 0\n");
    }
    return made;
}

/* The report of a round with some fields of some nodes, that may be the report of the plan. */
static struct text report(uint32_t round, uint32_t nodes, const char *field) {
    struct text made = {malloc(MOST_BYTES), 0};
    if (!made.bytes) exit(2);
    made.len = (size_t)sprintf((char *)made.bytes, "round %u\n", (unsigned)round);
    for (uint32_t node = 0; node < nodes && made.len + 64 < MOST_BYTES; node++)
        made.len += (size_t)sprintf((char *)made.bytes + made.len, "%u %s=%u\n", (unsigned)node, field, (unsigned)below(9));
    return made;
}

/* A round: mostly a small one, else one at the limit or above it, where the text is one that refuses it. */
static uint32_t some_round(void) {
    if (chance(40)) return (uint32_t)(1000000001 + below(1000));
    if (chance(40)) return UINT32_MAX;
    return (uint32_t)below(24);
}

/* The room for an answer: none, too little, or enough in most cases. */
static size_t some_room(size_t most) {
    if (chance(8)) return 0;
    return chance(3) ? below(64) : below(most);
}

struct texts {
    struct text program, network, from, schedule;
    struct guarded program_memory, network_memory, from_memory, schedule_memory;
};

static struct texts draw_texts(void) {
    struct texts texts;
    struct text none = {NULL, 0};
    texts.program = damaged(programs[below(program_count)], !chance(3));
    texts.network = damaged(networks[below(network_count)], !chance(3));
    texts.from = none;
    if (chance(4)) {
        static const char *const fields[] = {"dist", "s", "known", "vote", "leader"};
        struct text whole = report((uint32_t)below(chance(30) ? 4000000000u : 9), (uint32_t)(1 + below(8)), fields[below(5)]);
        texts.from = damaged(whole, !chance(6));
        free(whole.bytes);
    }
    texts.schedule = schedule();
    texts.program_memory = copied(texts.program);
    texts.network_memory = copied(texts.network);
    texts.from_memory = copied(texts.from);
    texts.schedule_memory = copied(texts.schedule);
    return texts;
}

static void drop_texts(struct texts *texts, const char *call) {
    check_text(texts->program_memory, texts->program, call);
    check_text(texts->network_memory, texts->network, call);
    if (texts->from.bytes) check_text(texts->from_memory, texts->from, call);
    else check_memory(texts->from_memory, 0, call);
    check_text(texts->schedule_memory, texts->schedule, call);
    free(texts->program.bytes);
    free(texts->network.bytes);
    free(texts->from.bytes);
    free(texts->schedule.bytes);
}

#define PROGRAM inside(texts.program_memory), texts.program.len
#define NETWORK inside(texts.network_memory), texts.network.len
#define FROM inside(texts.from_memory), texts.from.len
#define SCHEDULE inside(texts.schedule_memory), texts.schedule.len

/* A size that is no answer's. */
static const size_t UNSET = 0x5eed5eed;

/* Sizes are set exactly where the answer is 0 or too little room. */
static void check_size(uint32_t answer, size_t size, const char *call) {
    if (answer && answer != UNISON_ROOM && size != UNSET) fail("set a size", call);
    if ((!answer || answer == UNISON_ROOM) && size == UNSET) fail("did not set a size", call);
}

static void hit_check(void) {
    struct texts texts = draw_texts();
    struct guarded text = guarded(some_room(2048));
    size_t len = UNSET;
    uint32_t answer = unison_check(PROGRAM, inside(text), text.len, &len);
    check_answer(answer, "check");
    check_size(answer, len, "check");
    if (answer == UNISON_ROOM && len <= text.len) fail("had room", "check");
    check_memory(text, answer ? 0 : len, "check");
    drop_texts(&texts, "check");
}

enum { MOST_NAMES = 6 };

/* Names for constants, an LF behind each: some of those that stand behind `const` in the model, the seed and others; and how many there are. */
static struct text names_in(struct text model, size_t *count) {
    struct text made = {malloc(MOST_BYTES), 0};
    if (!made.bytes) exit(2);
    *count = 0;
    for (size_t at = 0; at + 6 < model.len && *count < MOST_NAMES - 1; at++) {
        if (memcmp(model.bytes + at, "const ", 6) != 0 || chance(3)) continue;
        size_t len = 0;
        while (at + 6 + len < model.len && len < 64 && !strchr(" =;\n", model.bytes[at + 6 + len])) len++;
        memcpy(made.bytes + made.len, model.bytes + at + 6, len);
        made.len += len;
        made.bytes[made.len++] = '\n';
        ++*count;
    }
    if (chance(4)) made.len += (size_t)sprintf((char *)made.bytes + made.len, "%s\n", chance(4) ? "none" : "seed"), ++*count;
    return made;
}

/* With the room that the program has, the same text is written again; and it is a program. */
static void expand_again(struct guarded model, struct guarded names, const uint32_t *values, size_t count, const uint8_t *found, size_t len) {
    struct guarded text = guarded(len), none = guarded(0);
    size_t again = UNSET, spelled = UNSET;
    if (unison_expand(inside(model), model.len, inside(names), names.len, values, count, inside(text), len, &again) || again != len)
        fail("refused the room that it asked for", "expand");
    if (found && memcmp(found, inside(text), len) != 0) fail("another text than before", "expand");
    uint32_t answer = unison_check(inside(text), len, inside(none), 0, &spelled);
    if (answer && answer != UNISON_ROOM) fail("a text that is no program", "expand");
    check_memory(none, 0, "expand");
    check_memory(text, len, "expand");
}

static void hit_expand(void) {
    size_t count, len = UNSET;
    struct text model = damaged(models[below(model_count)], !chance(3)), whole = names_in(model, &count), names = damaged(whole, !chance(6));
    struct guarded model_memory = copied(model), names_memory = copied(names), text = guarded(some_room(2048));
    uint32_t values[MOST_NAMES + 1];
    for (size_t place = 0; place <= MOST_NAMES; place++) values[place] = chance(6) ? (uint32_t)draw() : (uint32_t)below(300);
    if (chance(20)) count = below(MOST_NAMES + 1);
    uint32_t answer = unison_expand(inside(model_memory), model.len, inside(names_memory), names.len, values, count, inside(text), text.len, &len);
    check_answer(answer, "expand");
    check_size(answer, len, "expand");
    if (answer == UNISON_ROOM && len <= text.len) fail("had room", "expand");
    if (!answer || answer == UNISON_ROOM) expand_again(model_memory, names_memory, values, count, answer ? NULL : inside(text), len);
    check_memory(text, answer ? 0 : len, "expand");
    check_text(model_memory, model, "expand");
    check_text(names_memory, names, "expand");
    free(model.bytes);
    free(whole.bytes);
    free(names.bytes);
}

static void hit_lockstep(void) {
    struct texts texts = draw_texts();
    struct guarded words = guarded(sizeof(uint32_t) * some_room(MOST_WORDS));
    uint32_t nodes = UNSET, fields = UNSET;
    uint32_t answer = unison_lockstep(PROGRAM, NETWORK, FROM, some_round(), (uint32_t *)(void *)inside(words),
                                      words.len / sizeof(uint32_t), &nodes, &fields);
    check_answer(answer, "lockstep");
    check_size(answer, nodes, "lockstep");
    check_size(answer, fields, "lockstep");
    if (answer == UNISON_ROOM && sizeof(uint32_t) * nodes * fields <= words.len) fail("had room", "lockstep");
    check_memory(words, answer ? 0 : sizeof(uint32_t) * nodes * fields, "lockstep");
    drop_texts(&texts, "lockstep");
}

static void hit_watch(void) {
    struct texts texts = draw_texts();
    uint32_t rounds[MOST_ROUNDS], nodes = UNSET, fields = UNSET;
    size_t count = below(MOST_ROUNDS + 1);
    uint32_t round = (uint32_t)below(6);
    for (size_t i = 0; i < count; i++) {
        rounds[i] = chance(60) ? some_round() : round;
        round += 1 + (uint32_t)below(4);
    }
    struct guarded words = guarded(sizeof(uint32_t) * some_room(MOST_WORDS));
    uint32_t answer = unison_watch(PROGRAM, NETWORK, FROM, rounds, count, (uint32_t *)(void *)inside(words),
                                   words.len / sizeof(uint32_t), &nodes, &fields);
    check_answer(answer, "watch");
    check_size(answer, nodes, "watch");
    check_size(answer, fields, "watch");
    if (answer == UNISON_ROOM && sizeof(uint32_t) * count * nodes * fields <= words.len) fail("had room", "watch");
    check_memory(words, answer ? 0 : sizeof(uint32_t) * count * nodes * fields, "watch");
    drop_texts(&texts, "watch");
}

static void hit_settle(void) {
    struct texts texts = draw_texts();
    uint32_t manner = UNSET, round = UNSET, period = UNSET;
    uint32_t answer = unison_settle(PROGRAM, NETWORK, FROM, some_round(), &manner, &round, &period);
    check_answer(answer, "settle");
    if (answer == UNISON_ROOM) fail("asked for room", "settle");
    check_size(answer, manner, "settle");
    check_size(answer, round, "settle");
    check_size(answer, period, "settle");
    if (!answer && (manner < 1 || manner > 3 || (manner == UNISON_REPEATS) != (period > 0))) fail("a manner", "settle");
    drop_texts(&texts, "settle");
}

static void hit_replay(void) {
    struct texts texts = draw_texts();
    struct guarded told = guarded(some_room(MOST_BYTES));
    struct guarded counts = guarded(sizeof(uint32_t) * some_room(256));
    struct guarded words = guarded(sizeof(uint32_t) * some_room(MOST_WORDS));
    size_t len = UNSET;
    uint32_t nodes = UNSET, fields = UNSET;
    uint32_t answer = unison_replay(PROGRAM, NETWORK, FROM, SCHEDULE, some_round(), inside(told), told.len, &len,
                                    (uint32_t *)(void *)inside(counts), counts.len / sizeof(uint32_t),
                                    (uint32_t *)(void *)inside(words), words.len / sizeof(uint32_t), &nodes, &fields);
    check_answer(answer, "replay");
    check_size(answer, len, "replay");
    check_size(answer, nodes, "replay");
    check_size(answer, fields, "replay");
    if (answer == UNISON_ROOM && len <= told.len && sizeof(uint32_t) * nodes <= counts.len &&
        sizeof(uint32_t) * nodes * fields <= words.len)
        fail("had room", "replay");
    check_memory(told, answer ? 0 : len, "replay");
    check_memory(counts, answer ? 0 : sizeof(uint32_t) * nodes, "replay");
    check_memory(words, answer ? 0 : sizeof(uint32_t) * nodes * fields, "replay");
    drop_texts(&texts, "replay");
}

/* What the job of the number answers by itself, with no room: 0 where it is done, or would be with more room. */
static uint32_t job_answer(uint32_t job, struct texts texts, uint32_t number) {
    struct guarded none = guarded(0);
    uint32_t *words = (uint32_t *)(void *)inside(none), nodes, fields, answer;
    size_t len;
    if (job == UNISON_JOB_CHECK) answer = unison_check(PROGRAM, inside(none), 0, &len);
    else if (job == UNISON_JOB_LOCKSTEP) answer = unison_lockstep(PROGRAM, NETWORK, FROM, number, words, 0, &nodes, &fields);
    else answer = unison_replay(PROGRAM, NETWORK, FROM, SCHEDULE, number, inside(none), 0, &len, words, 0, words, 0, &nodes, &fields);
    check_memory(none, 0, "the job of why");
    return answer == UNISON_ROOM ? 0 : answer;
}

static void hit_why(void) {
    struct texts texts = draw_texts();
    struct guarded text = guarded(some_room(2048));
    size_t len = UNSET;
    uint32_t job = chance(20) ? (uint32_t)draw() : (uint32_t)(1 + below(3)), number = some_round(), fault = UNSET;
    uint32_t answer = unison_why(job, PROGRAM, NETWORK, FROM, SCHEDULE, number, &fault, inside(text), text.len, &len);
    check_answer(answer, "why");
    check_size(answer, len, "why");
    if (answer && fault != UNSET) fail("set a fault", "why");
    if (!answer && fault != job_answer(job, texts, number)) fail("another fault than its job's", "why");
    if ((answer == UNISON_NO_JOB) != (job < 1 || job > 3)) fail("a job", "why");
    if (answer == UNISON_ROOM && len <= text.len) fail("had room", "why");
    check_memory(text, answer ? 0 : len, "why");
    drop_texts(&texts, "why");
}

enum { MOST_NODES = 8, MOST_ENDS = 24 };

/* The lists of a network, most of them sound. */
struct lists {
    uint64_t offsets[MOST_NODES + 1];
    uint32_t neighbours[MOST_ENDS], weights[MOST_ENDS];
    size_t nodes, ends, weight_count;
};

static struct lists draw_lists(void) {
    struct lists lists = {.nodes = 1 + below(MOST_NODES)};
    for (size_t node = 0; node < lists.nodes; node++) lists.offsets[node + 1] = lists.offsets[node] + below(1 + MOST_ENDS / MOST_NODES);
    lists.ends = lists.offsets[lists.nodes];
    for (size_t end = 0; end < MOST_ENDS; end++) {
        lists.neighbours[end] = (uint32_t)below(lists.nodes);
        lists.weights[end] = (uint32_t)below(9);
    }
    if (chance(10)) lists.offsets[below(lists.nodes + 1)] = chance(2) ? draw() : below(MOST_ENDS);
    if (chance(10) && lists.ends) lists.neighbours[below(lists.ends)] = chance(2) ? (uint32_t)draw() : (uint32_t)lists.nodes;
    lists.weight_count = chance(10) ? below(MOST_ENDS) : chance(2) ? lists.ends : 0;
    return lists;
}

#define LISTS lists.offsets, lists.nodes + 1, lists.neighbours, lists.ends, lists.weights, lists.weight_count

/* The rounds, on as many words as the call asks for: its fault is the same as without words, and no other one comes of them. */
static void go_on(struct texts texts, struct lists lists, uint32_t start, uint32_t round, uint32_t fields) {
    struct guarded words = guarded(sizeof(uint32_t) * lists.nodes * fields);
    uint32_t set = UNSET;
    uint32_t answer = unison_large_rounds(PROGRAM, LISTS, start, round, (uint32_t *)(void *)inside(words), lists.nodes * fields, &set);
    if (answer || set != fields) fail("refused the words that it asked for", "large_rounds");
    check_memory(words, words.len, "large_rounds");
}

static void hit_large(void) {
    struct texts texts = draw_texts();
    struct lists lists = draw_lists(), before = lists;
    struct guarded none = guarded(0);
    size_t place = UNSET;
    uint32_t fields = UNSET, start = (uint32_t)below(5), round = some_round();
    uint32_t fault = unison_large_check(LISTS, &place);
    check_answer(fault, "large_check");
    if (!fault != (place == UNSET)) fail("a place", "large_check");
    uint32_t answer = unison_large_rounds(PROGRAM, LISTS, start, round, (uint32_t *)(void *)inside(none), 0, &fields);
    check_answer(answer, "large_rounds");
    if ((!answer || answer == UNISON_LISTS_WORD_COUNT) == (fields == UNSET)) fail("a number of fields", "large_rounds");
    if (fault && answer != fault && answer >= UNISON_NETWORK_NOT_TOML) fail("another fault than its check's", "large_rounds");
    if (!fault && answer >= UNISON_LISTS_NODE_COUNT && answer < UNISON_LISTS_WORD_COUNT) fail("a fault of no lists", "large_rounds");
    if (answer == UNISON_LISTS_WORD_COUNT) go_on(texts, lists, start, round, fields);
    if (memcmp(&lists, &before, sizeof lists) != 0) fail("wrote into the lists", "large_rounds");
    check_memory(none, 0, "large_rounds");
    drop_texts(&texts, "large_rounds");
}

enum { MOST_LARGE_WORDS = MOST_NODES * 8, MOST_WATCHED = 4 };

/* The words of a list of rounds in one pass are those of each of the rounds by a call of its own. */
static void compare_watched(struct texts texts, struct lists lists, uint32_t start, const uint32_t *old, size_t size, const uint32_t *rounds,
                            size_t count, const uint32_t *found) {
    uint32_t each[MOST_LARGE_WORDS], fields = UNSET;
    for (size_t i = 0; i < count; i++) {
        memcpy(each, old, sizeof each);
        if (unison_large_rounds(PROGRAM, LISTS, start, rounds[i], each, size, &fields)) fail("watched a round that is refused", "large_watch");
        if (memcmp(found + i * size, each, sizeof *each * size) != 0) fail("other words than of the round alone", "large_watch");
    }
}

/* What a call that watches rounds has to answer, in the order of its faults; the number of fields is that which it set. */
static uint32_t watch_answer(struct texts texts, struct lists lists, uint32_t start, const uint32_t *rounds, size_t count, size_t words, size_t room) {
    struct guarded none = guarded(0);
    uint32_t fields = 0, answer = 0, *nothing = (uint32_t *)(void *)inside(none);
    for (size_t i = 0; i < count && (!answer || answer == UNISON_LISTS_WORD_COUNT); i++) {
        answer = unison_large_rounds(PROGRAM, LISTS, start, rounds[i], nothing, 0, &fields);
        if ((!answer || answer == UNISON_LISTS_WORD_COUNT) && i && rounds[i] <= rounds[i - 1]) answer = UNISON_NOT_RISING;
    }
    if (!count) answer = unison_large_rounds(PROGRAM, LISTS, 0, 0, nothing, 0, &fields);
    check_memory(none, 0, "the rounds of large_watch");
    if (answer && answer != UNISON_LISTS_WORD_COUNT) return answer;
    if (words != lists.nodes * fields) return UNISON_LISTS_WORD_COUNT;
    return room < count * words ? UNISON_ROOM : 0;
}

/* A list of rounds on lists, most of it rising: the answer is what its parts have, and the words are those of each round. */
static void hit_large_watch(void) {
    struct texts texts = draw_texts();
    struct lists lists = draw_lists(), before = lists;
    uint32_t old[MOST_LARGE_WORDS], rounds[MOST_WATCHED + 1], fields = UNSET, start = (uint32_t)below(5);
    size_t count = below(MOST_WATCHED + 1), size = lists.nodes * (chance(10) ? below(9) : 1);
    for (size_t word = 0; word < MOST_LARGE_WORDS; word++) old[word] = chance(5) ? (uint32_t)draw() : (uint32_t)below(9);
    for (size_t i = 0; i <= MOST_WATCHED; i++) rounds[i] = chance(20) ? some_round() : (i ? rounds[i - 1] + !chance(20) + (uint32_t)below(3) : start + (uint32_t)below(3));
    uint32_t asked = unison_large_rounds(PROGRAM, LISTS, 0, 0, old, 0, &fields);
    if (!chance(10) && (!asked || asked == UNISON_LISTS_WORD_COUNT)) size = lists.nodes * fields;
    fields = UNSET;
    struct guarded words = guarded(sizeof(uint32_t) * (chance(4) ? below(count * size + 2) : count * size + below(3)));
    uint32_t *found = (uint32_t *)(void *)inside(words);
    size_t room = words.len / sizeof(uint32_t);
    uint32_t answer = unison_large_watch(PROGRAM, LISTS, start, old, size, rounds, count, found, room, &fields);
    check_answer(answer, "large_watch");
    if (answer != watch_answer(texts, lists, start, rounds, count, size, room)) fail("another answer than its parts have", "large_watch");
    if ((!answer || answer == UNISON_LISTS_WORD_COUNT || answer == UNISON_ROOM) == (fields == UNSET)) fail("a number of fields", "large_watch");
    if (!answer) compare_watched(texts, lists, start, old, size, rounds, count, found);
    if (memcmp(&lists, &before, sizeof lists) != 0) fail("wrote into the lists", "large_watch");
    check_memory(words, answer ? 0 : sizeof(uint32_t) * count * size, "large_watch");
    drop_texts(&texts, "large_watch");
}

enum { MOST_VALUES = 256 };

/* The counts of a list of rounds are those of their words, node by node. */
static void compare_counted(struct texts texts, struct lists lists, uint32_t start, const uint32_t *old, size_t size, const uint32_t *rounds, size_t count,
                            uint32_t field, const uint32_t *values, size_t valued, const uint32_t *found) {
    uint32_t words[MOST_WATCHED * MOST_LARGE_WORDS], fields = UNSET;
    if (unison_large_watch(PROGRAM, LISTS, start, old, size, rounds, count, words, MOST_WATCHED * MOST_LARGE_WORDS, &fields)) fail("counted rounds that are refused", "large_counts");
    for (size_t i = 0; i < count; i++, found += valued + 1) {
        uint32_t counts[MOST_VALUES + 1] = {0};
        for (size_t at = i * size + field; at < (i + 1) * size; at += fields) {
            int is_value = 0;
            for (size_t place = 0; place < valued; place++) {
                counts[place] += words[at] == values[place];
                is_value |= words[at] == values[place];
            }
            counts[valued] += !is_value;
        }
        if (memcmp(found, counts, sizeof *counts * (valued + 1)) != 0) fail("other counts than of the words", "large_counts");
    }
}

/* Counts after a list of rounds on lists, most of it rising: the answer is what its parts have, and the counts are those of the words. */
static void hit_large_counts(void) {
    struct texts texts = draw_texts();
    struct lists lists = draw_lists(), before = lists;
    uint32_t old[MOST_LARGE_WORDS], rounds[MOST_WATCHED + 1], values[MOST_VALUES + 1], fields = UNSET, start = (uint32_t)below(5);
    size_t count = below(MOST_WATCHED + 1), size = lists.nodes * (chance(10) ? below(9) : 1), valued = chance(20) ? MOST_VALUES + below(2) : below(6);
    uint32_t field = chance(10) ? (uint32_t)draw() : (uint32_t)below(3);
    for (size_t word = 0; word < MOST_LARGE_WORDS; word++) old[word] = chance(5) ? (uint32_t)draw() : (uint32_t)below(9);
    for (size_t i = 0; i <= MOST_WATCHED; i++) rounds[i] = chance(20) ? some_round() : (i ? rounds[i - 1] + !chance(20) + (uint32_t)below(3) : start + (uint32_t)below(3));
    for (size_t place = 0; place <= MOST_VALUES; place++) values[place] = chance(5) ? old[below(MOST_LARGE_WORDS)] : (uint32_t)below(9);
    uint32_t asked = unison_large_rounds(PROGRAM, LISTS, 0, 0, old, 0, &fields), wanted;
    if (!chance(10) && (!asked || asked == UNISON_LISTS_WORD_COUNT)) size = lists.nodes * fields;
    size_t numbers = count * (valued + 1);
    struct guarded counts = guarded(sizeof(uint32_t) * (chance(4) ? below(numbers + 2) : numbers + below(3)));
    uint32_t *found = (uint32_t *)(void *)inside(counts);
    size_t room = counts.len / sizeof(uint32_t);
    wanted = watch_answer(texts, lists, start, rounds, count, size, SIZE_MAX);
    if (!wanted && field >= fields) wanted = UNISON_LISTS_NO_FIELD;
    if (!wanted && valued > MOST_VALUES) wanted = UNISON_LISTS_TOO_MANY_VALUES;
    if (!wanted && room < numbers) wanted = UNISON_ROOM;
    fields = UNSET;
    uint32_t answer = unison_large_counts(PROGRAM, LISTS, start, old, size, rounds, count, field, values, valued, found, room, &fields);
    check_answer(answer, "large_counts");
    if (answer != wanted) fail("another answer than its parts have", "large_counts");
    if ((!answer || answer == UNISON_ROOM || answer == UNISON_LISTS_WORD_COUNT || answer >= UNISON_LISTS_NO_FIELD) == (fields == UNSET)) fail("a number of fields", "large_counts");
    if (!answer) compare_counted(texts, lists, start, old, size, rounds, count, field, values, valued, found);
    if (memcmp(&lists, &before, sizeof lists) != 0) fail("wrote into the lists", "large_counts");
    check_memory(counts, answer ? 0 : sizeof(uint32_t) * numbers, "large_counts");
    drop_texts(&texts, "large_counts");
}

/* How many nodes have other words in the new list than in the old one. */
static size_t count_changed(const uint32_t *old, const uint32_t *new, size_t nodes, size_t fields) {
    size_t count = 0;
    for (size_t node = 0; node < nodes; node++) count += memcmp(old + node * fields, new + node * fields, sizeof *old * fields) != 0;
    return count;
}

/* The round of a part that is the first nodes of the whole network under their own numbers, with all others behind them: what it
 * answers is what one round of the whole network answers for these nodes. */
static void hit_part(void) {
    struct texts texts = draw_texts();
    struct lists lists = draw_lists(), before = lists;
    uint32_t ids[MOST_NODES], old[MOST_LARGE_WORDS], whole[MOST_LARGE_WORDS], fields = UNSET, round = (uint32_t)below(5);
    size_t own = below(lists.nodes + 1), changed = UNSET;
    for (size_t node = 0; node < MOST_NODES; node++) ids[node] = (uint32_t)node;
    for (size_t word = 0; word < MOST_LARGE_WORDS; word++) whole[word] = old[word] = chance(5) ? (uint32_t)draw() : (uint32_t)below(9);
    uint32_t asked = unison_large_rounds(PROGRAM, LISTS, round, round + 1, whole, 0, &fields);
    size_t each = asked == UNISON_LISTS_WORD_COUNT || !asked ? fields : 1;
    uint32_t wanted = each ? unison_large_rounds(PROGRAM, LISTS, round, round + 1, whole, lists.nodes * each, &fields) : 0;
    struct guarded to = guarded(sizeof(uint32_t) * own * each);
    uint32_t answer = unison_part_round(PROGRAM, ids, lists.nodes, LISTS, round, old, lists.nodes * each, (uint32_t *)(void *)inside(to), own * each, &changed);
    check_answer(answer, "part_round");
    if (!answer != (changed != UNSET)) fail("a number of changed nodes", "part_round");
    if (asked == UNISON_LISTS_WORD_COUNT || !asked) {
        if (answer != wanted || answer) fail("another answer than of a whole round", "part_round");
        if (memcmp(inside(to), whole, to.len) != 0) fail("other words than of a whole round", "part_round");
        if (changed != (each ? count_changed(old, whole, own, each) : 0)) fail("another number of changed nodes", "part_round");
    } else if (answer != asked) fail("another fault than that of a whole round", "part_round");
    if (memcmp(&lists, &before, sizeof lists) != 0) fail("wrote into the lists", "part_round");
    check_memory(to, answer ? 0 : to.len, "part_round");
    drop_texts(&texts, "part_round");
}

/* How much memory the process has, in KiB. */
static unsigned long resident(void) {
    unsigned long pages = 0, all = 0;
    FILE *file = fopen("/proc/self/statm", "r");
    if (file) {
        if (fscanf(file, "%lu %lu", &all, &pages) != 2) pages = 0;
        fclose(file);
    }
    return pages * 4;
}

int main(int count, char **words) {
    static void (*const hits[])(void) = {hit_check, hit_expand, hit_lockstep, hit_watch, hit_settle, hit_replay, hit_why, hit_large, hit_large_watch, hit_large_counts, hit_part};
    if (count < 5) {
        fputs("hammer: SEED CALLS FILE..\n", stderr);
        return 2;
    }
    state = strtoull(words[1], NULL, 10) * 2 + 1;
    unsigned long long calls = strtoull(words[2], NULL, 10);
    for (int i = 3; i < count; i++) {
        const char *ending = strrchr(words[i], '.');
        if (ending && strcmp(ending, ".rules") == 0 && program_count < MOST_TEXTS) programs[program_count++] = read_file(words[i]);
        if (ending && strcmp(ending, ".model") == 0 && model_count < MOST_TEXTS) models[model_count++] = read_file(words[i]);
        if (ending && strcmp(ending, ".toml") == 0 && network_count < MOST_TEXTS) networks[network_count++] = read_file(words[i]);
    }
    if (!program_count || !model_count || !network_count) return 2;
    unsigned long warm = 0;
    for (call_number = 1; call_number <= calls; call_number++) {
        hits[below(sizeof hits / sizeof *hits)]();
        if (call_number == calls / 10) warm = resident();
    }
    unsigned long last = resident();
    for (size_t i = 0; i < sizeof seen / sizeof *seen; i++)
        if (seen[i]) printf("answer %zu: %llu\n", i, (unsigned long long)seen[i]);
    printf("%llu calls, %lu KiB after a tenth of them, %lu KiB after all\n", calls, warm, last);
    if (calls >= MANY_CALLS && last > warm + 1024) {
        puts("FAILED: the memory grows");
        return 1;
    }
    return 0;
}
