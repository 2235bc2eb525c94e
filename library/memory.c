/* Makes each call again and again, with its first, second, .. request for memory refused, until it asks for no more.
 *
 * Where a request is refused the answer has to be UNISON_MEMORY, and then all that the caller gave has to be as it was, or it has
 * to be right, since some requests are for speed alone; with none refused it has to be right. What is right was worked out by hand.
 * Either way as many blocks have to be taken as before the call. It is linked with --wrap=malloc, --wrap=realloc and --wrap=free.
 * Prints a line for each call, with how many requests were refused, and how many of them the answer told; none is a fault. Its
 * status is 0 where all was right. */
#include "unison.h"

#include <stdio.h>
#include <string.h>

void *__real_malloc(size_t size);
void *__real_realloc(void *block, size_t size);
void __real_free(void *block);
void *__wrap_malloc(size_t size);
void *__wrap_realloc(void *block, size_t size);
void __wrap_free(void *block);

static unsigned long requests, refused; /* how many were made in this call; the number of the one that is refused, or 0 */
static long blocks;

static int is_refused(void) { return ++requests == refused; }

void *__wrap_malloc(size_t size) {
    void *block = is_refused() ? NULL : __real_malloc(size);
    blocks += block != NULL;
    return block;
}

void *__wrap_realloc(void *block, size_t size) {
    void *moved = is_refused() ? NULL : __real_realloc(block, size);
    blocks += moved != NULL && block == NULL;
    return moved;
}

void __wrap_free(void *block) {
    blocks -= block != NULL;
    __real_free(block);
}

/* All that the calls write. */
struct room {
    uint8_t text[400];
    size_t text_len;
    uint32_t words[8], counts[8], nodes, fields, manner, round, period, fault;
};

#define BYTES(text) (const uint8_t *)(text), sizeof(text) - 1
#define PROGRAM BYTES("field dist = 4294967295; next dist = (dist min least (n.dist + 1));")
#define NETWORK BYTES("nodes = 3\nlinks = [[0, 1], [1, 2]]\n[set]\ndist = [[0, 0]]\n")
#define FROM BYTES("round 5\n0 dist=7\n1 dist=3\n2 dist=9\n")
#define NOTHING BYTES("")
#define SCHEDULE BYTES("read 1 0\nread 1 1\nwrite 1\n")
#define BROKEN BYTES("field dist = 4294967295;\nnext dist = (dist min least (n.dist + 1;\n")
#define FAR UINT32_C(4294967295)
#define MODEL BYTES("const a = 1;\nconst b = 2;\nfield s = a;\nlet around = total(n.s) + b;\nnext s = around;\n")

static uint32_t check(struct room *it) { return unison_check(PROGRAM, it->text, sizeof it->text, &it->text_len); }

static uint32_t expand(struct room *it) {
    static const uint32_t values[] = {5, 7};
    return unison_expand(MODEL, BYTES("b\na\n"), values, 2, it->text, sizeof it->text, &it->text_len);
}

static uint32_t lockstep(struct room *it) { return unison_lockstep(PROGRAM, NETWORK, FROM, 6, it->words, 8, &it->nodes, &it->fields); }

static uint32_t watch(struct room *it) {
    static const uint32_t rounds[] = {0, 2};
    return unison_watch(PROGRAM, NETWORK, NOTHING, rounds, 2, it->words, 8, &it->nodes, &it->fields);
}

static uint32_t settle(struct room *it) { return unison_settle(PROGRAM, NETWORK, NOTHING, 100, &it->manner, &it->round, &it->period); }

static uint32_t replay(struct room *it) {
    return unison_replay(PROGRAM, NETWORK, NOTHING, SCHEDULE, 2, it->text, sizeof it->text, &it->text_len, it->counts, 8, it->words, 8,
                         &it->nodes, &it->fields);
}

static uint32_t why(struct room *it) {
    return unison_why(UNISON_JOB_CHECK, BROKEN, NOTHING, NOTHING, NOTHING, 0, &it->fault, it->text, sizeof it->text, &it->text_len);
}

/* From words that all are 0xA5A5A5A5: the next ones are the sums of the neighbours', which is the greatest number at the middle one. */
static uint32_t large(struct room *it) {
    static const uint64_t offsets[] = {0, 1, 3, 4};
    static const uint32_t neighbours[] = {1, 0, 2, 1};
    return unison_large_rounds(BYTES("field s = 0; next s = total n.s;"), offsets, 4, neighbours, 4, neighbours, 0, 0, 1, it->words, 3, &it->fields);
}

/* The same path and program, from 1, 2 and 3, in rounds 0 and 2. */
static uint32_t large_watch(struct room *it) {
    static const uint64_t offsets[] = {0, 1, 3, 4};
    static const uint32_t neighbours[] = {1, 0, 2, 1}, from[] = {1, 2, 3}, rounds[] = {0, 2};
    return unison_large_watch(BYTES("field s = 0; next s = total n.s;"), offsets, 4, neighbours, 4, neighbours, 0, 0, from, 3, rounds, 2, it->words, 8, &it->fields);
}

/* How many nodes have 4, 2 and none of them in the same rounds. */
static uint32_t large_counts(struct room *it) {
    static const uint64_t offsets[] = {0, 1, 3, 4};
    static const uint32_t neighbours[] = {1, 0, 2, 1}, from[] = {1, 2, 3}, rounds[] = {0, 2}, values[] = {4, 2};
    return unison_large_counts(BYTES("field s = 0; next s = total n.s;"), offsets, 4, neighbours, 4, neighbours, 0, 0, from, 3, rounds, 2, 0, values, 2, it->words, 8,
                               &it->fields);
}

/* The middle node of the same path as the own one of a part: from 9, and its neighbours' 3 and 4, it changes to 7. */
static uint32_t part(struct room *it) {
    static const uint64_t offsets[] = {0, 2, 2, 2};
    static const uint32_t ids[] = {1, 0, 2}, neighbours[] = {1, 2}, from[] = {9, 3, 4};
    return unison_part_round(BYTES("field s = 0; next s = total n.s;"), ids, 3, offsets, 4, neighbours, 2, neighbours, 0, 0, from, 3, it->words, 1, &it->text_len);
}

static int has_text(const struct room *it, const char *text) { return it->text_len == strlen(text) && memcmp(it->text, text, it->text_len) == 0; }

static int has_numbers(const uint32_t *found, const uint32_t *right, size_t count) { return memcmp(found, right, count * sizeof *right) == 0; }

/* Whether the call wrote what is right. */
static int is_right(const char *name, const struct room *it) {
    static const uint32_t from_report[] = {4, 3, 4}, watched[] = {0, FAR, FAR, 0, 1, 2}, counts[] = {0, 1, 0}, shown[] = {0, 1, FAR};
    int has_shape = it->nodes == 3 && it->fields == 1;
    static const uint32_t summed[] = {0xA5A5A5A5, FAR, 0xA5A5A5A5, 0xA5A5A5A5};
    static const uint32_t changed[] = {7, 0xA5A5A5A5}, both[] = {1, 2, 3, 4, 4, 4, 0xA5A5A5A5};
    static const uint32_t counted[] = {0, 1, 2, 3, 0, 0, 0xA5A5A5A5};
    if (!strcmp(name, "part")) return it->text_len == 1 && has_numbers(it->words, changed, 2);
    if (!strcmp(name, "large_watch")) return it->fields == 1 && has_numbers(it->words, both, 7);
    if (!strcmp(name, "large_counts")) return it->fields == 1 && has_numbers(it->words, counted, 7);
    if (!strcmp(name, "large")) return it->fields == 1 && has_numbers(it->words, summed, 4);
    if (!strcmp(name, "check")) return has_text(it, "field dist = 4294967295;\nnext dist = (dist min least (n.dist + 1));\n");
    if (!strcmp(name, "expand")) return has_text(it, "# line 3\nfield s = 7;\n# line 5\nnext s = (total n.s + 5);\n");
    if (!strcmp(name, "lockstep")) return has_shape && has_numbers(it->words, from_report, 3);
    if (!strcmp(name, "watch")) return has_shape && has_numbers(it->words, watched, 6);
    if (!strcmp(name, "settle")) return it->manner == UNISON_SETTLES && it->round == 2 && it->period == 0;
    if (!strcmp(name, "replay"))
        return has_shape && has_text(it, "0 moves 0 dist=0\n1 moves 1 dist=1\n2 moves 0 dist=4294967295\n") &&
               has_numbers(it->counts, counts, 3) && has_numbers(it->words, shown, 3);
    return it->fault == UNISON_PROGRAM_SYNTAX &&
           has_text(it, "program:2:40: program Syntax: expected `)`, found `;`\n  2 | next dist = (dist min least (n.dist + 1;\n"
                        "    |                                        ^\n  an operator stands between two parts in brackets: (A + B)\n");
}

enum outcome { RIGHT, TOLD, WRONG };

/* Makes the call with one request refused, and sees whether the answer is right, or tells of it. */
static enum outcome try_call(const char *name, uint32_t (*call)(struct room *), unsigned long number) {
    static struct room before, after;
    long taken = blocks;
    memset(&before, 0xA5, sizeof before);
    memcpy(&after, &before, sizeof after);
    requests = 0;
    refused = number;
    uint32_t answer = call(&after);
    if (blocks != taken) return WRONG;
    if (answer == UNISON_MEMORY && requests >= refused && !memcmp(&before, &after, sizeof after)) return TOLD;
    return answer == 0 && is_right(name, &after) ? RIGHT : WRONG;
}

int main(void) {
    static const struct {
        const char *name;
        uint32_t (*call)(struct room *);
    } calls[] = {{"check", check}, {"expand", expand}, {"lockstep", lockstep}, {"watch", watch}, {"settle", settle}, {"replay", replay}, {"why", why}, {"large", large}, {"large_watch", large_watch}, {"large_counts", large_counts}, {"part", part}};
    for (size_t at = 0; at < sizeof calls / sizeof *calls; ++at) {
        unsigned long number = 0, told = 0;
        do {
            enum outcome outcome = try_call(calls[at].name, calls[at].call, ++number);
            if (outcome == WRONG) {
                printf("%s: FAILED where request %lu was refused\n", calls[at].name, number);
                return 1;
            }
            told += outcome == TOLD;
        } while (requests >= number);
        printf("%s: %lu requests, each refused once; %lu were told\n", calls[at].name, number - 1, told);
        if (told == 0) return 1;
    }
    return 0;
}
