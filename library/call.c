/* Shows each call, on files: what it asks for, and how the answer is printed.
 *
 *     call check PROGRAM                          the canonical spelling
 *     call expand MODEL [NAME=VALUE..]            the program that the model is expanded to, where these constants have these values
 *     call lockstep PROGRAM NETWORK ROUND [FROM]  a line for each node: its number and its words
 *     call watch PROGRAM NETWORK ROUND..          the same for each round, behind a line with its number
 *     call settle PROGRAM NETWORK LIMIT           settles ROUND, repeats ROUND PERIOD, or open LIMIT
 *     call replay PROGRAM NETWORK SCHEDULE STOP   the replay report, and a line for each node: its number, its count and its words
 *     call large PROGRAM PACKED ROUND [INITIAL]   a line for each node, as of lockstep, on the network of any size that `unison pack` made;
 *                                                 INITIAL is what `call watch` printed of one round, to go on from
 *     call large_watch PROGRAM PACKED ROUND..     the same for each round, behind a line with its number, from what the program opens with
 *     call large_counts PROGRAM PACKED FIELD ROUND VALUES..
 *                                                 a line for each round up to this one: its number, how many nodes have each of the values in
 *                                                 the field of this number, and how many have none of them
 *     call why JOB PROGRAM [NETWORK NUMBER [SCHEDULE]]
 *                                                 the number of the first fault, or 0, and what is told of it
 *
 * Where a call is not done it prints the number of its fault, and ends with status 3. */
#include "unison.h"

#include <errno.h>
#include <stdio.h>
#include <stdlib.h>
#include <string.h>

struct text {
    uint8_t *bytes;
    size_t len;
};

static void *room_for(size_t count, size_t size) {
    void *room = calloc(count ? count : 1, size);
    if (!room) {
        fputs("call: not enough memory\n", stderr);
        exit(1);
    }
    return room;
}

/* A text that is not there: its pointer is not null. */
static struct text no_text(void) {
    struct text text = {room_for(0, 1), 0};
    return text;
}

/* The bytes of a file. */
static struct text read_file(const char *path) {
    FILE *file = fopen(path, "rb");
    long len = -1;
    if (file && fseek(file, 0, SEEK_END) == 0) len = ftell(file);
    if (len < 0) {
        fprintf(stderr, "call: %s: %s\n", path, strerror(errno));
        exit(1);
    }
    rewind(file);
    struct text text = {room_for((size_t)len, 1), (size_t)len};
    if (fread(text.bytes, 1, text.len, file) != text.len) {
        fprintf(stderr, "call: %s: not read\n", path);
        exit(1);
    }
    fclose(file);
    return text;
}

static uint32_t number(const char *word) { return (uint32_t)strtoul(word, NULL, 10); }

static int fault(uint32_t answer) {
    printf("fault %u\n", (unsigned)answer);
    return 3;
}

static void print_words(const uint32_t *words, uint32_t nodes, uint32_t fields) {
    for (uint32_t node = 0; node < nodes; node++) {
        printf("%u", (unsigned)node);
        for (uint32_t field = 0; field < fields; field++) printf(" %u", (unsigned)words[(size_t)node * fields + field]);
        putchar('\n');
    }
}

static int show_check(const char *path) {
    struct text program = read_file(path);
    size_t len = 0;
    uint8_t *spelling = room_for(0, 1);
    /* With no room at first: the answer tells how long the text is. */
    uint32_t answer = unison_check(program.bytes, program.len, spelling, 0, &len);
    if (answer == UNISON_ROOM) {
        free(spelling);
        spelling = room_for(len, 1);
        answer = unison_check(program.bytes, program.len, spelling, len, &len);
    }
    if (answer) return fault(answer);
    fwrite(spelling, 1, len, stdout);
    free(spelling);
    free(program.bytes);
    return 0;
}

/* The names of `NAME=VALUE`, an LF behind each, and their values. */
static struct text names_and_values(char **words, size_t count, uint32_t *values) {
    size_t room = 0;
    for (size_t i = 0; i < count; i++) room += strlen(words[i]) + 1;
    struct text names = {room_for(room, 1), 0};
    for (size_t i = 0; i < count; i++) {
        size_t name = strcspn(words[i], "=");
        memcpy(names.bytes + names.len, words[i], name);
        names.bytes[names.len + name] = '\n';
        names.len += name + 1;
        values[i] = words[i][name] ? number(words[i] + name + 1) : 0;
    }
    return names;
}

static int show_expand(char **words, size_t count) {
    uint32_t *values = room_for(count, sizeof *values);
    struct text model = read_file(words[0]), names = names_and_values(words + 1, count, values);
    size_t len = 0;
    uint8_t *program = room_for(0, 1);
    uint32_t answer = unison_expand(model.bytes, model.len, names.bytes, names.len, values, count, program, 0, &len);
    if (answer == UNISON_ROOM) {
        free(program);
        program = room_for(len, 1);
        answer = unison_expand(model.bytes, model.len, names.bytes, names.len, values, count, program, len, &len);
    }
    if (answer) return fault(answer);
    fwrite(program, 1, len, stdout);
    free(program);
    free(names.bytes);
    free(model.bytes);
    free(values);
    return 0;
}

static int show_lockstep(char **words) {
    struct text program = read_file(words[0]), network = read_file(words[1]);
    struct text from = words[3] ? read_file(words[3]) : no_text();
    uint32_t round = number(words[2]), nodes = 0, fields = 0;
    uint32_t *states = room_for(0, sizeof *states);
    uint32_t answer = unison_lockstep(program.bytes, program.len, network.bytes, network.len, from.bytes, from.len, round,
                                      states, 0, &nodes, &fields);
    if (answer == UNISON_ROOM) {
        size_t room = (size_t)nodes * fields;
        free(states);
        states = room_for(room, sizeof *states);
        answer = unison_lockstep(program.bytes, program.len, network.bytes, network.len, from.bytes, from.len, round, states,
                                 room, &nodes, &fields);
    }
    if (answer) return fault(answer);
    print_words(states, nodes, fields);
    free(states);
    free(from.bytes);
    free(network.bytes);
    free(program.bytes);
    return 0;
}

static int show_watch(char **words, size_t count) {
    struct text program = read_file(words[0]), network = read_file(words[1]), from = no_text();
    uint32_t *rounds = room_for(count, sizeof *rounds), *states = room_for(0, sizeof *states), nodes = 0, fields = 0;
    for (size_t i = 0; i < count; i++) rounds[i] = number(words[2 + i]);
    uint32_t answer = unison_watch(program.bytes, program.len, network.bytes, network.len, from.bytes, from.len, rounds, count,
                                   states, 0, &nodes, &fields);
    if (answer == UNISON_ROOM) {
        size_t room = count * nodes * fields;
        free(states);
        states = room_for(room, sizeof *states);
        answer = unison_watch(program.bytes, program.len, network.bytes, network.len, from.bytes, from.len, rounds, count,
                              states, room, &nodes, &fields);
    }
    if (answer) return fault(answer);
    for (size_t i = 0; i < count; i++) {
        printf("round %u\n", (unsigned)rounds[i]);
        print_words(states + i * nodes * fields, nodes, fields);
    }
    free(states);
    free(rounds);
    free(from.bytes);
    free(network.bytes);
    free(program.bytes);
    return 0;
}

static int show_settle(char **words) {
    struct text program = read_file(words[0]), network = read_file(words[1]), from = no_text();
    uint32_t manner = 0, round = 0, period = 0;
    uint32_t answer = unison_settle(program.bytes, program.len, network.bytes, network.len, from.bytes, from.len,
                                    number(words[2]), &manner, &round, &period);
    if (answer) return fault(answer);
    if (manner == UNISON_SETTLES) printf("settles %u\n", (unsigned)round);
    if (manner == UNISON_REPEATS) printf("repeats %u %u\n", (unsigned)round, (unsigned)period);
    if (manner == UNISON_OPEN) printf("open %u\n", (unsigned)round);
    free(from.bytes);
    free(network.bytes);
    free(program.bytes);
    return 0;
}

static int show_replay(char **words) {
    struct text program = read_file(words[0]), network = read_file(words[1]), schedule = read_file(words[2]), from = no_text();
    uint32_t stop = number(words[3]), nodes = 0, fields = 0;
    uint8_t *report = room_for(0, 1);
    uint32_t *counts = room_for(0, sizeof *counts), *states = room_for(0, sizeof *states);
    size_t len = 0, room = 0;
    uint32_t answer = unison_replay(program.bytes, program.len, network.bytes, network.len, from.bytes, from.len, schedule.bytes,
                                    schedule.len, stop, report, 0, &len, counts, 0, states, 0, &nodes, &fields);
    if (answer == UNISON_ROOM) {
        free(report);
        free(counts);
        free(states);
        room = (size_t)nodes * fields;
        report = room_for(len, 1);
        counts = room_for(nodes, sizeof *counts);
        states = room_for(room, sizeof *states);
        answer = unison_replay(program.bytes, program.len, network.bytes, network.len, from.bytes, from.len, schedule.bytes,
                               schedule.len, stop, report, len, &len, counts, nodes, states, room, &nodes, &fields);
    }
    if (answer) return fault(answer);
    fwrite(report, 1, len, stdout);
    for (uint32_t node = 0; node < nodes; node++) {
        printf("%u %u", (unsigned)node, (unsigned)counts[node]);
        for (uint32_t field = 0; field < fields; field++) printf(" %u", (unsigned)states[(size_t)node * fields + field]);
        putchar('\n');
    }
    free(states);
    free(counts);
    free(report);
    free(schedule.bytes);
    free(from.bytes);
    free(network.bytes);
    free(program.bytes);
    return 0;
}

static int show_why(char **words, size_t count) {
    struct text program = read_file(words[1]), from = no_text();
    struct text network = count > 2 ? read_file(words[2]) : no_text();
    struct text schedule = count > 4 ? read_file(words[4]) : no_text();
    uint32_t job = number(words[0]), limit = count > 3 ? number(words[3]) : 0;
    uint32_t first = 0;
    size_t len = 0;
    uint8_t *told = room_for(0, 1);
    uint32_t answer = unison_why(job, program.bytes, program.len, network.bytes, network.len, from.bytes, from.len,
                                 schedule.bytes, schedule.len, limit, &first, told, 0, &len);
    if (answer == UNISON_ROOM) {
        free(told);
        told = room_for(len, 1);
        answer = unison_why(job, program.bytes, program.len, network.bytes, network.len, from.bytes, from.len, schedule.bytes,
                            schedule.len, limit, &first, told, len, &len);
    }
    if (answer) return fault(answer);
    printf("first fault %u\n", (unsigned)first);
    fwrite(told, 1, len, stdout);
    free(told);
    free(schedule.bytes);
    free(from.bytes);
    free(network.bytes);
    free(program.bytes);
    return 0;
}

static int wrong(const char *path, const char *what) {
    fprintf(stderr, "call: %s: %s\n", path, what);
    return 2;
}

/* The words that a program's fields open with, and how many these are: those of a network of one node. */
static uint32_t open_node(struct text program, uint32_t words[8], uint32_t *fields) {
    static const uint8_t lone[] = "nodes = 1\nlinks = []\n";
    uint32_t nodes = 0;
    return unison_lockstep(program.bytes, program.len, lone, sizeof lone - 1, lone, 0, 0, words, 8, &nodes, fields);
}

/* Reads the round and the words that `call watch` printed; whether they are there. */
static int read_initial(const char *path, uint32_t *words, size_t nodes, uint32_t fields, uint32_t *start) {
    FILE *file = fopen(path, "r");
    unsigned word = 0;
    int is_read = file && fscanf(file, "round %u", &word) == 1;
    *start = word;
    for (size_t node = 0; is_read && node < nodes; node++) {
        is_read = fscanf(file, "%u", &word) == 1 && word == node;
        for (uint32_t field = 0; is_read && field < fields; field++) {
            is_read = fscanf(file, "%u", &word) == 1;
            words[node * fields + field] = word;
        }
    }
    if (file) fclose(file);
    return is_read;
}

/* The lists of a network of any size. */
struct lists {
    const uint64_t *offsets;
    const uint32_t *neighbours, *weights;
    size_t nodes, ends, weight_count;
};

#define LISTS(lists) lists.offsets, lists.nodes + 1, lists.neighbours, lists.ends, lists.weights, lists.weight_count

/* The three lists lie in a packed network as they are (docs/formats.md): behind the header the offsets, the neighbours, the weights. */
static int read_lists(const char *path, struct text packed, struct lists *lists) {
    uint64_t header[4] = {0};
    if (packed.len < sizeof header || memcmp(packed.bytes, "UNISONW1", 8) != 0) return wrong(path, "no packed network: `unison pack` makes one");
    memcpy(header, packed.bytes, sizeof header);
    if (header[3] > 1) return wrong(path, "the packed network has settings, which are not read here: `unison init --packed --phase 0 --clear FIELD` writes one without");
    size_t nodes = header[1], ends = header[2], weights = header[3] ? ends : 0;
    if (nodes > packed.len / 8 || ends > packed.len / 4 || packed.len != sizeof header + 8 * (nodes + 1) + 4 * (ends + weights))
        return wrong(path, "the packed network has another length than its header says");
    const uint64_t *offsets = (const uint64_t *)(const void *)(packed.bytes + sizeof header);
    const uint32_t *neighbours = (const uint32_t *)(const void *)(offsets + nodes + 1);
    *lists = (struct lists){offsets, neighbours, neighbours + ends, nodes, ends, weights};
    return 0;
}

/* The words that so many nodes open with. */
static uint32_t *open_nodes(const uint32_t first[8], size_t nodes, uint32_t fields) {
    uint32_t *states = room_for(nodes * fields, sizeof *states);
    for (size_t at = 0; at < nodes * fields; at++) states[at] = first[at % fields];
    return states;
}

/* A program and a packed network that were read, and the words that each node opens with. */
struct large {
    struct text program, packed;
    struct lists lists;
    uint32_t first[8], fields;
};

/* Reads a program and a packed network by their paths. Another status than 0 where one is refused, which is told. */
static int open_large(char **words, struct large *large) {
    large->program = read_file(words[0]);
    large->packed = read_file(words[1]);
    large->fields = 0;
    int status = read_lists(words[1], large->packed, &large->lists);
    if (status) return status;
    uint32_t answer = open_node(large->program, large->first, &large->fields);
    return answer ? fault(answer) : 0;
}

static int show_large(char **words) {
    struct large large;
    int status = open_large(words, &large);
    if (status) return status;
    uint32_t start = 0;
    uint32_t *states = open_nodes(large.first, large.lists.nodes, large.fields);
    if (words[3] && !read_initial(words[3], states, large.lists.nodes, large.fields, &start))
        return wrong(words[3], "no words of one round, as `call watch` prints them");
    uint32_t answer = unison_large_rounds(large.program.bytes, large.program.len, LISTS(large.lists), start, number(words[2]), states,
                                          large.lists.nodes * large.fields, &large.fields);
    if (answer) return fault(answer);
    print_words(states, (uint32_t)large.lists.nodes, large.fields);
    free(states);
    free(large.packed.bytes);
    free(large.program.bytes);
    return 0;
}

static int show_large_watch(char **words, size_t count) {
    struct large large;
    int status = open_large(words, &large);
    if (status) return status;
    size_t size = large.lists.nodes * large.fields;
    uint32_t *from = open_nodes(large.first, large.lists.nodes, large.fields);
    uint32_t *rounds = room_for(count, sizeof *rounds), *states = room_for(count * size, sizeof *states);
    for (size_t i = 0; i < count; i++) rounds[i] = number(words[2 + i]);
    uint32_t answer = unison_large_watch(large.program.bytes, large.program.len, LISTS(large.lists), 0, from, size, rounds, count, states,
                                         count * size, &large.fields);
    if (answer) return fault(answer);
    for (size_t i = 0; i < count; i++) {
        printf("round %u\n", (unsigned)rounds[i]);
        print_words(states + i * size, (uint32_t)large.lists.nodes, large.fields);
    }
    free(states);
    free(rounds);
    free(from);
    free(large.packed.bytes);
    free(large.program.bytes);
    return 0;
}

static int show_large_counts(char **words, size_t count) {
    struct large large;
    int status = open_large(words, &large);
    if (status) return status;
    size_t size = large.lists.nodes * large.fields, told = (size_t)number(words[3]) + 1;
    uint32_t *from = open_nodes(large.first, large.lists.nodes, large.fields);
    uint32_t *rounds = room_for(told, sizeof *rounds), *values = room_for(count, sizeof *values);
    uint32_t *counts = room_for(told * (count + 1), sizeof *counts);
    for (size_t i = 0; i < told; i++) rounds[i] = (uint32_t)i;
    for (size_t i = 0; i < count; i++) values[i] = number(words[4 + i]);
    uint32_t answer = unison_large_counts(large.program.bytes, large.program.len, LISTS(large.lists), 0, from, size, rounds, told, number(words[2]),
                                          values, count, counts, told * (count + 1), &large.fields);
    if (answer) return fault(answer);
    for (size_t i = 0; i < told; i++) {
        printf("%u", (unsigned)rounds[i]);
        for (size_t place = 0; place <= count; place++) printf(" %u", (unsigned)counts[i * (count + 1) + place]);
        putchar('\n');
    }
    free(counts);
    free(values);
    free(rounds);
    free(from);
    free(large.packed.bytes);
    free(large.program.bytes);
    return 0;
}

int main(int count, char **words) {
    const char *call = count > 2 ? words[1] : "";
    if (strcmp(call, "check") == 0 && count == 3) return show_check(words[2]);
    if (strcmp(call, "expand") == 0) return show_expand(words + 2, (size_t)count - 3);
    if (strcmp(call, "lockstep") == 0 && (count == 5 || count == 6)) return show_lockstep(words + 2);
    if (strcmp(call, "watch") == 0 && count >= 4) return show_watch(words + 2, (size_t)count - 4);
    if (strcmp(call, "settle") == 0 && count == 5) return show_settle(words + 2);
    if (strcmp(call, "replay") == 0 && count == 6) return show_replay(words + 2);
    if (strcmp(call, "large") == 0 && (count == 5 || count == 6)) return show_large(words + 2);
    if (strcmp(call, "large_watch") == 0 && count >= 4) return show_large_watch(words + 2, (size_t)count - 4);
    if (strcmp(call, "large_counts") == 0 && count >= 6) return show_large_counts(words + 2, (size_t)count - 6);
    if (strcmp(call, "why") == 0 && count >= 4) return show_why(words + 2, (size_t)count - 2);
    fputs("call: check, expand, lockstep, watch, settle, replay, large, large_watch, large_counts or why, and its files and numbers (call.c tells them)\n", stderr);
    return 2;
}
