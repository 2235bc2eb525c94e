/* What each call answers, what it writes and what it leaves alone: rows worked out by hand, on a path of three nodes. Prints a line for each
 * row that is wrong, and `N passed, M failed` last. */

#include "unison.h"
#include <stdio.h>
#include <string.h>

#define FAR 4294967295u
#define TEXT(text) (const uint8_t *)(text), strlen(text)
#define NO_VALUES (const uint32_t[]){0}, 0

/* The path 0 - 1 - 2, with node 0 as the source. */
static const char path[] = "nodes = 3\nlinks = [[0, 1], [1, 2]]\n[set]\ndist = [[0, 0]]\n";
/* Each node learns how many links away the nearest source is. */
static const char distance[] = "field dist = 4294967295; next dist = (dist min least (n.dist + 1));";
/* Each node goes from 0 to 1 and back. */
static const char blink[] = "field s = 0; next s = (1 - s);";
/* The states after round 5, from which rounds go on. */
static const char five[] = "round 5\n0 dist=7\n1 dist=3\n2 dist=9\n";
/* Node 1 reads both its neighbours, and moves. */
static const char middle[] = "read 1 0\nread 1 1\nwrite 1\n";
static const char loose[] = "nodes = 2\nlinks = [[0, 0]]\n";

static int passed, failed;

static void is(const char *what, int well) {
    if (well) passed++;
    else failed++, printf("library: %s: FAILED\n", what);
}

/* Whether words are the wanted ones. */
static int are(const uint32_t *words, const uint32_t *wanted, size_t count) { return memcmp(words, wanted, 4 * count) == 0; }

static void spelling(void) {
    char text[80];
    size_t len = 9;
    memset(text, '.', 80);
    is("check, a fault", unison_check(TEXT("field"), (uint8_t *)text, 80, &len) == 18 && len == 9);
    is("check, too little room", unison_check(TEXT(distance), (uint8_t *)text, 12, &len) == 2 && len == 68);
    is("check, too little room: nothing is written", strspn(text, ".") >= 80);
    is("check", unison_check(TEXT(distance), (uint8_t *)text, 80, &len) == 0 && len == 68);
    is("check, the text and what stands behind it",
       memcmp(text, "field dist = 4294967295;\nnext dist = (dist min least (n.dist + 1));\n............", 80) == 0);
}

/* The program of the model, of 49 bytes, with the lines on which its field and its next value stand. */
static const char stepping[] = "const step = 2;\nfield s = step;\nnext s = s + step;\n";

static void expansion(void) {
    const char crossed[] = "const a = 1;\nconst b = a;\nfield s = a;\nnext s = b;\n";
    char text[80];
    size_t len = 9;
    memset(text, '.', 80);
    is("expand, too little room", unison_expand(TEXT(stepping), TEXT(""), NO_VALUES, (uint8_t *)text, 48, &len) == 2 && len == 49);
    is("expand, too little room: nothing is written", strspn(text, ".") >= 80);
    is("expand", unison_expand(TEXT(stepping), TEXT(""), NO_VALUES, (uint8_t *)text, 49, &len) == 0 && len == 49);
    is("expand, the text and what stands behind it",
       memcmp(text, "# line 2\nfield s = 2;\n# line 3\nnext s = (s + 2);\n...............................", 80) == 0);
    is("expand, a constant that is set", unison_expand(TEXT(stepping), TEXT("step\n"), (uint32_t[]){10}, 1, (uint8_t *)text, 80, &len) == 0 && len == 51);
    is("expand, with its value", memcmp(text, "# line 2\nfield s = 10;\n# line 3\nnext s = (s + 10);\n.", 52) == 0);
    is("expand, two constants", unison_expand(TEXT(crossed), TEXT("b\na\n"), (uint32_t[]){7, 8}, 2, (uint8_t *)text, 80, &len) == 0 && len == 43);
    is("expand, each with its value", memcmp(text, "# line 3\nfield s = 8;\n# line 4\nnext s = 7;\n", 43) == 0);
    is("expand, one of two", unison_expand(TEXT(crossed), TEXT("a\n"), (uint32_t[]){FAR}, 1, (uint8_t *)text, 80, &len) == 0 && len == 61);
    is("expand, and what is made of it", memcmp(text, "# line 3\nfield s = 4294967295;\n# line 4\nnext s = 4294967295;\n", 61) == 0);
    is("expand, a name twice", unison_expand(TEXT(stepping), TEXT("step\nstep\n"), (uint32_t[]){3, 5}, 2, (uint8_t *)text, 80, &len) == 0 && text[19] == '3');
    is("expand, the seed alone", unison_expand(TEXT(stepping), TEXT("seed\n"), (uint32_t[]){3}, 1, (uint8_t *)text, 80, &len) == 0 && len == 49 && text[19] == '2');
    is("expand, no items", unison_expand(TEXT("# nothing\n"), TEXT(""), NO_VALUES, (uint8_t *)text, 0, &len) == 0 && len == 0);
}

/* The answer to a model with these names and so many values, with ample room; nothing is written or set. */
static void refuses(const char *what, const char *model, const char *names, size_t values, uint32_t wanted) {
    static const uint32_t listed[3];
    char text[200];
    size_t len = 9;
    memset(text, '.', 200);
    uint32_t answer = unison_expand(TEXT(model), TEXT(names), listed, values, (uint8_t *)text, 200, &len);
    is(what, answer == wanted && len == 9 && strspn(text, ".") >= 200);
}

/* So many times the same, one behind the other, between a beginning and an end. */
static const char *repeated(const char *begin, const char *part, size_t times, const char *end) {
    static char made[70000];
    char *at = made + sprintf(made, "%s", begin);
    while (times--) at += sprintf(at, "%s", part);
    sprintf(at, "%s", end);
    return made;
}

static void refused_constants(void) {
    refuses("expand, a name that the model does not have", stepping, "stop\n", 1, 169);
    refuses("expand, an empty name", stepping, "\n", 1, 169);
    refuses("expand, the name of a field", stepping, "s\n", 1, 169);
    refuses("expand, a name with CR behind it", stepping, "step\r\n", 1, 169);
    refuses("expand, names that are no UTF-8", stepping, "step\n\377\n", 2, 192);
    refuses("expand, a name without LF", stepping, "step", 1, 193);
    refuses("expand, a second name without LF", stepping, "step\nseed", 2, 193);
    refuses("expand, a value too many", stepping, "step\n", 2, 194);
    refuses("expand, a value too few", stepping, "step\nseed\n", 1, 194);
    refuses("expand, a value without a name", stepping, "", 1, 194);
    refuses("expand, names before what is wrong with the model", "field", "step", 1, 193);
    refuses("expand, values before what is wrong with the model", "field", "step\n", 0, 194);
    refuses("expand, a name before what is wrong with an item", "field s = x;", "step\n", 1, 169);
    refuses("expand, a model that is too long before names", repeated("field", " ", 65536, ""), "step", 0, 160);
}

/* One model for each number that a model is refused by (docs/models.md). */
static void refused_models(void) {
    refuses("expand, more than 65,536 parts",
            "field s = 0; next s = p; let a = s + s; let b = a + a; let c = b + b; let d = c + c; let e = d + d; let f = e + e; let g = f + f; let h = g + g;"
            "let i = h + h; let j = i + i; let k = j + j; let l = k + k; let m = l + l; let o = m + m; let p = o + o + o;", "", 0, 160);
    refuses("expand, no token", "field s = !0;", "", 0, 161);
    refuses("expand, a model that breaks off", "field", "", 0, 162);
    refuses("expand, nine fields", "field a = 0; field b = 0; field c = 0; field d = 0; field e = 0; field f = 0; field g = 0; field h = 0; field i = 0;", "", 0, 163);
    refuses("expand, 257 states", repeated("states many { x", ", x", 256, " }"), "", 0, 164);
    refuses("expand, two constants of a name", "const a = 1; const a = 2;", "", 0, 165);
    refuses("expand, two next values", "field s = 0; next s = 1; next s = 2;", "", 0, 166);
    refuses("expand, the next value of no field", "field s = 0; next t = 1;", "", 0, 167);
    refuses("expand, states that are not there", "field s: light = 0;", "", 0, 168);
    refuses("expand, a name that nothing has", "field s = 0; next s = t;", "", 0, 170);
    refuses("expand, a constant of a neighbour", "const a = 1; field s = 0; next s = total(n.a);", "", 0, 171);
    refuses("expand, a let without its argument", "let f(x) = x; field s = 0; next s = f;", "", 0, 172);
    refuses("expand, a difference of one", "field s = 0; next s = difference(s);", "", 0, 173);
    refuses("expand, a neighbour outside", "field s = 0; next s = n.s;", "", 0, 174);
    refuses("expand, an aggregate in an aggregate", "field s = 0; next s = total(total(n.s));", "", 0, 175);
    refuses("expand, a degree of a neighbour", "field s = 0; let d = degree; next s = total(n.d);", "", 0, 176);
    refuses("expand, constants by each other", "const a = b; const b = a;", "", 0, 177);
    refuses("expand, an initial value by the node", "field s = id;", "", 0, 178);
    refuses("expand, a constant below 0", "const a = 1 - 2;", "", 0, 179);
    refuses("expand, none of the states", "states light { dark, bright } field s: light = 2;", "", 0, 180);
    refuses("expand, an expression that is too deep", repeated("field s = 0; next s = ", "1 + ", 70, "s;"), "", 0, 181);
    refuses("expand, 17 aggregates", repeated("field s = 0; next s = ", "total(n.s) + ", 16, "total(n.s);"), "", 0, 182);
}

static void rounds(void) {
    uint32_t words[4] = {9, 9, 9, 9}, nodes = 7, fields = 7, answer;
    answer = unison_lockstep(TEXT(distance), TEXT(path), TEXT(""), 2, words, 2, &nodes, &fields);
    is("lockstep, too little room", answer == 2 && nodes == 3 && fields == 1 && are(words, (uint32_t[]){9, 9, 9, 9}, 4));
    answer = unison_lockstep(TEXT(distance), TEXT(path), TEXT(""), 2, words, 4, &nodes, &fields);
    is("lockstep", answer == 0 && nodes == 3 && fields == 1 && are(words, (uint32_t[]){0, 1, 2, 9}, 4));
}

static void rounds_from_a_report(void) {
    uint32_t words[3] = {9, 9, 9}, nodes = 7, fields = 7, answer;
    answer = unison_lockstep(TEXT(distance), TEXT(path), TEXT(five), 6, words, 3, &nodes, &fields);
    is("lockstep from a report", answer == 0 && nodes == 3 && fields == 1 && are(words, (uint32_t[]){4, 3, 4}, 3));
    nodes = fields = 7;
    answer = unison_lockstep(TEXT(distance), TEXT(path), TEXT(five), 4, words, 3, &nodes, &fields);
    is("lockstep below the report", answer == 81 && nodes == 7 && fields == 7);
}

static void watched(void) {
    const uint32_t ends[] = {0, 2}, twice[] = {2, 2}, whole[] = {0, FAR, FAR, 0, 1, 2, 9};
    uint32_t words[7] = {9, 9, 9, 9, 9, 9, 9}, nodes = 7, fields = 7, answer;
    answer = unison_watch(TEXT(distance), TEXT(path), TEXT(""), ends, 2, words, 5, &nodes, &fields);
    is("watch, too little room", answer == 2 && nodes == 3 && fields == 1 && are(words, (uint32_t[]){9, 9, 9, 9, 9, 9, 9}, 7));
    answer = unison_watch(TEXT(distance), TEXT(path), TEXT(""), ends, 2, words, 7, &nodes, &fields);
    is("watch", answer == 0 && nodes == 3 && fields == 1 && are(words, whole, 7));
    nodes = fields = 7;
    answer = unison_watch(TEXT(distance), TEXT(path), TEXT(""), twice, 2, words, 7, &nodes, &fields);
    is("watch, rounds that do not rise", answer == 4 && nodes == 7 && fields == 7);
    answer = unison_watch(TEXT(distance), TEXT(path), TEXT(""), ends, 0, words, 7, &nodes, &fields);
    is("watch, no rounds", answer == 0 && nodes == 3 && fields == 1 && are(words, whole, 7));
}

/* What becomes of a program's rounds is the wanted answer; the three numbers are 9 where they are not set. */
static void settles(const char *what, const char *program, const char *network, uint32_t limit, const uint32_t wanted[4]) {
    uint32_t told[4] = {0, 9, 9, 9};
    told[0] = unison_settle(TEXT(program), TEXT(network), TEXT(""), limit, &told[1], &told[2], &told[3]);
    is(what, are(told, wanted, 4));
}

static void settling(void) {
    const char bare[] = "nodes = 3\nlinks = [[0, 1], [1, 2]]\n", clock[] = "field s = 0; next s = round;";
    settles("settle", distance, path, 100, (uint32_t[]){0, 1, 2, 0});
    settles("settle, states that come again", blink, bare, 100, (uint32_t[]){0, 2, 0, 2});
    settles("settle, up to a limit", distance, path, 1, (uint32_t[]){0, 3, 1, 0});
    settles("settle, a program that reads the round", clock, bare, 100, (uint32_t[]){128, 9, 9, 9});
    settles("settle, a limit that is too large", blink, bare, 1000000001, (uint32_t[]){129, 9, 9, 9});
}

static void replayed(void) {
    char report[64];
    const uint32_t nines[] = {9, 9, 9, 9};
    uint32_t counts[4] = {9, 9, 9, 9}, words[4] = {9, 9, 9, 9}, nodes = 7, fields = 7, answer;
    size_t len = 7;
    memset(report, '.', 64);
    answer = unison_replay(TEXT(distance), TEXT(path), TEXT(""), TEXT(middle), 2, (uint8_t *)report, 64, &len, counts, 2, words, 4, &nodes, &fields);
    is("replay, too little room", answer == 2 && len == 60 && nodes == 3 && fields == 1);
    is("replay, too little room: nothing is written", strspn(report, ".") >= 64 && are(counts, nines, 4) && are(words, nines, 4));
    answer = unison_replay(TEXT(distance), TEXT(path), TEXT(""), TEXT(middle), 2, (uint8_t *)report, 64, &len, counts, 4, words, 4, &nodes, &fields);
    is("replay", answer == 0 && len == 60 && nodes == 3 && fields == 1);
    is("replay, the report", memcmp(report, "0 moves 0 dist=0\n1 moves 1 dist=1\n2 moves 0 dist=4294967295\n....", 64) == 0);
    is("replay, counts and words", are(counts, (uint32_t[]){0, 1, 0, 9}, 4) && are(words, (uint32_t[]){0, 1, FAR, 9}, 4));
}

static void told(void) {
    const char program[] = "field dist = 4294967295;\nnext dist = (dist min least (n.dist + 1;\n";
    const char whole[] = "program:2:40: program Syntax: expected `)`, found `;`\n  2 | next dist = (dist min least (n.dist + 1;\n"
                         "    |                                        ^\n  an operator stands between two parts in brackets: (A + B)\n";
    char text[210];
    uint32_t fault = 9;
    size_t len = 9, wanted = strlen(whole);
    memset(text, '.', 210);
    is("why, no such job", unison_why(4, TEXT(program), TEXT(path), TEXT(""), TEXT(""), 0, &fault, (uint8_t *)text, 210, &len) == 5 && fault == 9 && len == 9);
    is("why, too little room", unison_why(1, TEXT(program), TEXT(path), TEXT(""), TEXT(""), 0, &fault, (uint8_t *)text, 9, &len) == 2 && fault == 9 && len == wanted);
    is("why, too little room: nothing is written", strspn(text, ".") >= 210);
    is("why", unison_why(1, TEXT(program), TEXT(path), TEXT(""), TEXT(""), 0, &fault, (uint8_t *)text, 210, &len) == 0 && fault == 18 && len == wanted);
    is("why, the text and what stands behind it", memcmp(text, whole, wanted) == 0 && text[wanted] == '.');
    memset(text, '.', 210);
    is("why, nothing is wrong", unison_why(2, TEXT(distance), TEXT(path), TEXT(""), TEXT(""), 2, &fault, (uint8_t *)text, 20, &len) == 0 && fault == 0 && len == 17);
    is("why, that nothing is wrong", memcmp(text, "nothing is wrong\n...", 20) == 0);
}

/* The first fault that is told of a job, with ample room. */
static void first(const char *what, uint32_t job, const char *program, const char *network, const char *from, const char *schedule,
                  uint32_t number, uint32_t wanted) {
    uint8_t text[800];
    uint32_t fault = 9;
    size_t len = 9;
    uint32_t answer = unison_why(job, TEXT(program), TEXT(network), TEXT(from), TEXT(schedule), number, &fault, text, 800, &len);
    is(what, answer == 0 && fault == wanted);
}

static void told_faults(void) {
    first("why, a program that breaks off", 2, "field", path, "", "", 2, 18);
    first("why, a link of a node with itself", 2, distance, loose, "", "", 2, 53);
    first("why, a field that the program does not have", 2, blink, path, "", "", 2, 64);
    first("why, a round that is too large", 2, distance, path, "", "", 1000000001, 80);
    first("why, a round below the report", 2, distance, path, five, "", 4, 81);
    first("why, the round of the report", 2, distance, path, five, "", 5, 0);
    first("why, a report that breaks off", 2, distance, path, "round 5\n", "", 9, 112);
    first("why, a check reads the program alone", 1, distance, loose, "", "", 2, 0);
    first("why, a step that is none", 3, distance, path, "", "raed 0 0\n", 2, 96);
    first("why, a stop that is too large", 3, distance, path, "", "", 1000000001, 98);
    first("why, a stop below the report", 3, distance, path, five, middle, 4, 99);
    first("why, a stop above the report", 3, distance, path, five, middle, 6, 0);
    first("why, rounds read no schedule", 2, distance, path, "", "raed 0 0\n", 2, 0);
}

/* The answer to a replay, with no room. */
static void replay_is(const char *what, const char *from, const char *schedule, uint32_t stop, uint32_t wanted) {
    uint8_t report;
    uint32_t counts, words, nodes, fields;
    size_t len;
    is(what, unison_replay(TEXT(distance), TEXT(path), TEXT(from), TEXT(schedule), stop, &report, 0, &len, &counts, 0, &words, 0, &nodes, &fields) == wanted);
}

/* The answer to a round, with no room. */
static void round_is(const char *what, const char *program, const char *network, uint32_t round, uint32_t wanted) {
    uint32_t words, nodes, fields;
    is(what, unison_lockstep(TEXT(program), TEXT(network), TEXT(""), round, &words, 0, &nodes, &fields) == wanted);
}

static void faults(void) {
    replay_is("replay, no room", "", "", 2, 2);
    replay_is("replay, a step that is none", "", "raed 0 0\n", 2, 96);
    replay_is("replay, a stop that is too large", "", "", 1000000001, 98);
    replay_is("replay, a stop below the report", five, "", 4, 99);
    replay_is("replay, a report that breaks off", "round 5\n", "", 9, 112);
    round_is("lockstep, a program that breaks off", "field", path, 2, 18);
    round_is("lockstep, a rule for no field", "field s = 0; next t = s;", path, 2, 35);
    round_is("lockstep, a network that breaks off", distance, "nodes = ", 2, 48);
    round_is("lockstep, a link of a node with itself", distance, loose, 2, 53);
    round_is("lockstep, a field that the program does not have", blink, path, 2, 64);
    round_is("lockstep, a round that is too large", distance, path, 1000000001, 80);
}

/* The path 0 - 1 - 2 as lists. */
static const uint64_t path_offsets[] = {0, 1, 3, 4};
static const uint32_t path_neighbours[] = {1, 0, 2, 1};
#define PATH_LISTS path_offsets, 4, path_neighbours, 4
#define NO_WEIGHTS path_neighbours, 0

/* The answer and the place for lists of four offsets and four neighbours; the place is 9 where it is not set. */
static void lists_are(const char *what, const uint64_t offsets[4], const uint32_t neighbours[4], size_t weights, uint32_t wanted, size_t at) {
    size_t place = 9;
    is(what, unison_large_check(offsets, 4, neighbours, 4, neighbours, weights, &place) == wanted && place == at);
}

static void lists(void) {
    size_t place = 9;
    lists_are("large check", path_offsets, path_neighbours, 0, 0, 9);
    lists_are("large check, with weights", path_offsets, path_neighbours, 4, 0, 9);
    lists_are("large check, a weight too few", path_offsets, path_neighbours, 3, 148, 3);
    lists_are("large check, a first offset that is not 0", (uint64_t[]){1, 1, 3, 4}, path_neighbours, 0, 145, 0);
    lists_are("large check, an offset that is lower", (uint64_t[]){0, 2, 1, 4}, path_neighbours, 0, 145, 1);
    lists_are("large check, a last offset that is too low", (uint64_t[]){0, 1, 3, 3}, path_neighbours, 0, 145, 3);
    lists_are("large check, an offset far behind the end", (uint64_t[]){0, 1, UINT64_MAX, 4}, path_neighbours, 0, 145, 2);
    lists_are("large check, a neighbour that is no node", path_offsets, (uint32_t[]){1, 0, 3, 1}, 0, 147, 2);
    lists_are("large check, the greatest number as neighbour", path_offsets, (uint32_t[]){1, 0, 2, FAR}, 0, 147, 3);
    is("large check, no node", unison_large_check(path_offsets, 1, path_neighbours, 0, NO_WEIGHTS, &place) == 144 && place == 0);
    place = 9;
    is("large check, no offset", unison_large_check(path_offsets, 0, path_neighbours, 0, NO_WEIGHTS, &place) == 144 && place == 0);
    place = 9;
    is("large check, a node without neighbours", unison_large_check((uint64_t[]){0, 0}, 2, path_neighbours, 0, NO_WEIGHTS, &place) == 0 && place == 9);
}

static void large_rounds(void) {
    const char weighted[] = "field d = 4294967295; next d = (d min least (n.d + n.weight));", total[] = "field s = 0; next s = total n.s;";
    const char both[] = "field a = 0; field b = 0; next a = b; next b = total n.a;";
    const uint64_t ring[] = {0, 1, 2, 3};
    uint32_t words[] = {0, FAR, FAR, 9}, apart[] = {0, FAR, FAR}, turned[] = {5, 6, 7}, laid[] = {1, 2, 3, 4, 5, 6}, later[] = {7, 3, 9};
    uint32_t fields = 9, answer;
    answer = unison_large_rounds(TEXT(distance), PATH_LISTS, NO_WEIGHTS, 0, 2, words, 3, &fields);
    is("large rounds", answer == 0 && fields == 1 && are(words, (uint32_t[]){0, 1, 2, 9}, 4));
    answer = unison_large_rounds(TEXT(weighted), PATH_LISTS, (uint32_t[]){3, 3, 4, 4}, 4, 0, 2, apart, 3, &fields);
    is("large rounds, with weights", answer == 0 && are(apart, (uint32_t[]){0, 3, 7}, 3));
    answer = unison_large_rounds(TEXT(total), ring, 4, (uint32_t[]){1, 2, 0}, 3, NO_WEIGHTS, 10, 11, turned, 3, &fields);
    is("large rounds, links one way", answer == 0 && are(turned, (uint32_t[]){6, 7, 5}, 3));
    answer = unison_large_rounds(TEXT(both), PATH_LISTS, NO_WEIGHTS, 0, 1, laid, 6, &fields);
    is("large rounds, two fields", answer == 0 && fields == 2 && are(laid, (uint32_t[]){2, 3, 4, 6, 6, 3}, 6));
    answer = unison_large_rounds(TEXT(distance), PATH_LISTS, NO_WEIGHTS, 5, 6, later, 3, &fields);
    is("large rounds from a later round", answer == 0 && are(later, (uint32_t[]){4, 3, 4}, 3));
    answer = unison_large_rounds(TEXT(distance), PATH_LISTS, NO_WEIGHTS, 7, 7, later, 3, &fields);
    is("large rounds, no round", answer == 0 && are(later, (uint32_t[]){4, 3, 4}, 3));
}

/* The answer to a round on lists of four offsets and four neighbours, the number of fields, and that the words stay. */
static void large_fault_is(const char *what, const char *program, const uint32_t neighbours[4], uint32_t start, uint32_t round, size_t count,
                           uint32_t wanted, uint32_t wanted_fields) {
    uint32_t words[] = {0, FAR, FAR}, fields = 9;
    uint32_t answer = unison_large_rounds(TEXT(program), path_offsets, 4, neighbours, 4, NO_WEIGHTS, start, round, words, count, &fields);
    is(what, answer == wanted && fields == wanted_fields && are(words, (uint32_t[]){0, FAR, FAR}, 3));
}

static void large_faults(void) {
    const uint32_t loose_neighbours[] = {1, 0, 3, 1};
    large_fault_is("large rounds, a program that breaks off", "field", loose_neighbours, 0, 2, 3, 18, 9);
    large_fault_is("large rounds, a neighbour that is no node", distance, loose_neighbours, 3, 2, 3, 147, 9);
    large_fault_is("large rounds, a round that is too large", distance, path_neighbours, 0, 1000000001, 2, 80, 9);
    large_fault_is("large rounds, a round below the start", distance, path_neighbours, 3, 2, 2, 81, 9);
    large_fault_is("large rounds, a word too few", distance, path_neighbours, 0, 2, 2, 149, 1);
    large_fault_is("large rounds, no words", "field a = 0; field b = 0; next a = b;", path_neighbours, 0, 2, 0, 149, 2);
}

static void large_watched(void) {
    const char both[] = "field a = 0; field b = 0; next a = b; next b = total n.a;";
    const uint32_t far[] = {0, FAR, FAR}, pairs[] = {1, 2, 3, 4, 5, 6}, five[] = {7, 3, 9}, weights[] = {3, 3, 4, 4};
    uint32_t words[] = {9, 9, 9, 9, 9, 9, 9, 9, 9, 9, 9, 9, 9}, fields = 9, answer;
    answer = unison_large_watch(TEXT(distance), PATH_LISTS, NO_WEIGHTS, 0, far, 3, (uint32_t[]){0, 1, 3}, 3, words, 10, &fields);
    is("large watch", answer == 0 && fields == 1 && are(words, (uint32_t[]){0, FAR, FAR, 0, 1, FAR, 0, 1, 2, 9}, 10));
    answer = unison_large_watch(TEXT(distance), PATH_LISTS, NO_WEIGHTS, 5, five, 3, (uint32_t[]){6}, 1, words, 3, &fields);
    is("large watch from a later round", answer == 0 && are(words, (uint32_t[]){4, 3, 4, 0, 1}, 5));
    answer = unison_large_watch(TEXT("field d = 0; next d = (d min least (n.d + n.weight));"), PATH_LISTS, weights, 4, 0, far, 3, (uint32_t[]){1, 2}, 2, words, 6, &fields);
    is("large watch, with weights", answer == 0 && are(words, (uint32_t[]){0, 3, FAR, 0, 3, 7, 0}, 7));
    answer = unison_large_watch(TEXT(both), PATH_LISTS, NO_WEIGHTS, 0, pairs, 6, (uint32_t[]){0, 1}, 2, words, 13, &fields);
    is("large watch, two fields", answer == 0 && fields == 2 && are(words, (uint32_t[]){1, 2, 3, 4, 5, 6, 2, 3, 4, 6, 6, 3, 9}, 13));
    answer = unison_large_watch(TEXT(distance), PATH_LISTS, NO_WEIGHTS, 2000000000, far, 3, far, 0, words, 0, &fields);
    is("large watch, no rounds", answer == 0 && fields == 1 && are(words, (uint32_t[]){1, 2, 3}, 3));
    is("large watch, the words to begin with stay", are(far, (uint32_t[]){0, FAR, FAR}, 3));
}

/* The answer to rounds on lists of four offsets and four neighbours, from so many words and with so much room; the number of fields; and that
 * the words stay. */
static void watch_fault_is(const char *what, const char *program, const uint32_t neighbours[4], const uint32_t rounds[2], size_t count, size_t room,
                           uint32_t wanted, uint32_t wanted_fields) {
    const uint32_t from[] = {0, FAR, FAR, 0};
    uint32_t words[] = {9, 9, 9, 9, 9, 9}, fields = 9;
    uint32_t answer = unison_large_watch(TEXT(program), path_offsets, 4, neighbours, 4, NO_WEIGHTS, 3, from, count, rounds, 2, words, room, &fields);
    is(what, answer == wanted && fields == wanted_fields && are(words, (uint32_t[]){9, 9, 9, 9, 9, 9}, 6));
}

static void large_watch_faults(void) {
    const uint32_t loose_neighbours[] = {1, 0, 3, 1}, rising[] = {3, 5}, twice[] = {4, 4}, falling[] = {5, 4}, below[] = {2, 1}, above[] = {3, 1000000001};
    watch_fault_is("large watch, a program that breaks off", "field", loose_neighbours, twice, 2, 5, 18, 9);
    watch_fault_is("large watch, a neighbour that is no node", distance, loose_neighbours, twice, 2, 5, 147, 9);
    watch_fault_is("large watch, a round twice", distance, path_neighbours, twice, 2, 5, 4, 9);
    watch_fault_is("large watch, rounds that fall", distance, path_neighbours, falling, 2, 5, 4, 9);
    watch_fault_is("large watch, a round below the start", distance, path_neighbours, below, 2, 5, 81, 9);
    watch_fault_is("large watch, a round that is too large", distance, path_neighbours, above, 2, 5, 80, 9);
    watch_fault_is("large watch, a word too few", distance, path_neighbours, rising, 2, 5, 149, 1);
    watch_fault_is("large watch, a word too many", distance, path_neighbours, rising, 4, 6, 149, 1);
    watch_fault_is("large watch, too little room", distance, path_neighbours, rising, 3, 5, 2, 1);
    watch_fault_is("large watch, no words and no room", "field a = 0; field b = 0; next a = b;", path_neighbours, rising, 0, 0, 149, 2);
}

static void large_counted(void) {
    const char both[] = "field a = 0; field b = 0; next a = b; next b = total n.a;";
    const uint32_t far[] = {0, FAR, FAR}, pairs[] = {1, 2, 3, 4, 5, 6}, five[] = {7, 3, 9};
    uint32_t counts[] = {9, 9, 9, 9, 9, 9, 9, 9, 9, 9, 9, 9, 9, 9, 9, 9}, fields = 9, answer;
    answer = unison_large_counts(TEXT(distance), PATH_LISTS, NO_WEIGHTS, 0, far, 3, (uint32_t[]){0, 1, 3}, 3, 0, (uint32_t[]){FAR, 0, 1, 2}, 4, counts, 15, &fields);
    is("large counts", answer == 0 && fields == 1 && are(counts, (uint32_t[]){2, 1, 0, 0, 0, 1, 1, 1, 0, 0, 0, 1, 1, 1, 0, 9}, 16));
    answer = unison_large_counts(TEXT(distance), PATH_LISTS, NO_WEIGHTS, 0, far, 3, (uint32_t[]){1}, 1, 0, (uint32_t[]){0, FAR, 0}, 3, counts, 5, &fields);
    is("large counts, a value twice", answer == 0 && are(counts, (uint32_t[]){1, 1, 1, 1, 0}, 5));
    answer = unison_large_counts(TEXT(distance), PATH_LISTS, NO_WEIGHTS, 5, five, 3, (uint32_t[]){6}, 1, 0, (uint32_t[]){4}, 1, counts, 2, &fields);
    is("large counts from a later round", answer == 0 && are(counts, (uint32_t[]){2, 1, 1}, 3));
    answer = unison_large_counts(TEXT(both), PATH_LISTS, NO_WEIGHTS, 0, pairs, 6, (uint32_t[]){0, 1}, 2, 1, (uint32_t[]){3, 4}, 2, counts, 6, &fields);
    is("large counts, the second field", answer == 0 && fields == 2 && are(counts, (uint32_t[]){0, 1, 2, 2, 0, 1, 1}, 7));
    answer = unison_large_counts(TEXT(both), PATH_LISTS, NO_WEIGHTS, 0, pairs, 6, (uint32_t[]){0, 1}, 2, 0, far, 0, counts, 2, &fields);
    is("large counts, no values", answer == 0 && are(counts, (uint32_t[]){3, 3, 2}, 3));
    answer = unison_large_counts(TEXT(distance), PATH_LISTS, NO_WEIGHTS, 2000000000, far, 3, far, 0, 0, far, 3, counts, 0, &fields);
    is("large counts, no rounds", answer == 0 && fields == 1 && are(counts, (uint32_t[]){3, 3, 2}, 3));
    is("large counts, the words to begin with stay", are(far, (uint32_t[]){0, FAR, FAR}, 3));
}

/* The answer to counts of a field after rounds on lists of four offsets and four neighbours, from so many words, of so many values and with so
 * much room; the number of fields; and that the counts stay. */
static void count_fault_is(const char *what, const char *program, const uint32_t neighbours[4], const uint32_t rounds[2], size_t count, uint32_t field,
                           size_t values, size_t room, uint32_t wanted, uint32_t wanted_fields) {
    static const uint32_t listed[257];
    const uint32_t from[] = {0, FAR, FAR, 0};
    uint32_t counts[] = {9, 9, 9, 9, 9, 9}, fields = 9;
    uint32_t answer = unison_large_counts(TEXT(program), path_offsets, 4, neighbours, 4, NO_WEIGHTS, 3, from, count, rounds, 2, field, listed, values, counts, room, &fields);
    is(what, answer == wanted && fields == wanted_fields && are(counts, (uint32_t[]){9, 9, 9, 9, 9, 9}, 6));
}

static void large_count_faults(void) {
    const uint32_t loose_neighbours[] = {1, 0, 3, 1}, rising[] = {3, 5}, twice[] = {4, 4}, below[] = {2, 1}, above[] = {3, 1000000001};
    count_fault_is("large counts, a program that breaks off", "field", loose_neighbours, twice, 2, 1, 257, 5, 18, 9);
    count_fault_is("large counts, a neighbour that is no node", distance, loose_neighbours, twice, 2, 1, 257, 5, 147, 9);
    count_fault_is("large counts, a round twice", distance, path_neighbours, twice, 2, 1, 257, 5, 4, 9);
    count_fault_is("large counts, a round below the start", distance, path_neighbours, below, 2, 1, 257, 5, 81, 9);
    count_fault_is("large counts, a round that is too large", distance, path_neighbours, above, 2, 1, 257, 5, 80, 9);
    count_fault_is("large counts, a word too few", distance, path_neighbours, rising, 2, 1, 257, 5, 149, 1);
    count_fault_is("large counts, a word too many", distance, path_neighbours, rising, 4, 1, 257, 5, 149, 1);
    count_fault_is("large counts, a field behind the last", distance, path_neighbours, rising, 3, 1, 257, 5, 152, 1);
    count_fault_is("large counts, a field far behind the last", distance, path_neighbours, rising, 3, FAR, 0, 6, 152, 1);
    count_fault_is("large counts, a value too many", distance, path_neighbours, rising, 3, 0, 257, 5, 153, 1);
    count_fault_is("large counts, too little room for 256 values", distance, path_neighbours, rising, 3, 0, 256, 6, 2, 1);
    count_fault_is("large counts, too little room", distance, path_neighbours, rising, 3, 0, 2, 5, 2, 1);
    count_fault_is("large counts, no room", distance, path_neighbours, rising, 3, 0, 0, 1, 2, 1);
}

/* Node 0 and node 1, and node 2 and node 3, of the path 0 - 1 - 2 - 3 as parts: each has the neighbour of its own nodes that is not its own behind them. */
static const uint64_t left_offsets[] = {0, 1, 3, 3}, right_offsets[] = {0, 2, 3, 3};
static const uint32_t left_ids[] = {0, 1, 2}, left_neighbours[] = {1, 0, 2}, right_ids[] = {2, 3, 1}, right_neighbours[] = {1, 2, 0};
#define LEFT_LISTS left_offsets, 4, left_neighbours, 3
#define RIGHT_LISTS right_offsets, 4, right_neighbours, 3
/* What it makes of the states 1 2 3 4 of the path in round 2: 2002 2104 2206 2303; where links 1 - 2 have weight 7 and all others 5, 2010 2126 2234 2315. */
static const char marked[] = "field s = 0; next s = ((total (n.s * n.weight) + (id * 100)) + (round * 1000));";

static void part_rounds(void) {
    const uint32_t left[] = {1, 2, 3}, right[] = {3, 4, 2}, weights[] = {5, 7, 5}, far[] = {0, FAR, FAR}, pairs[] = {1, 2, 3, 4, 5, 6};
    uint32_t left_next[] = {9, 9, 9}, right_next[] = {9, 9, 9}, answer;
    size_t changed = 9;
    answer = unison_part_round(TEXT(distance), left_ids, 3, LEFT_LISTS, NO_WEIGHTS, 0, far, 3, left_next, 2, &changed);
    is("part, one node changes", answer == 0 && changed == 1 && are(left_next, (uint32_t[]){0, 1, 9}, 3));
    answer = unison_part_round(TEXT(marked), left_ids, 3, LEFT_LISTS, NO_WEIGHTS, 2, left, 3, left_next, 2, &changed);
    is("part, numbers and round", answer == 0 && changed == 2 && are(left_next, (uint32_t[]){2002, 2104, 9}, 3));
    answer = unison_part_round(TEXT(marked), right_ids, 3, RIGHT_LISTS, weights, 3, 2, right, 3, right_next, 2, &changed);
    is("part, weights", answer == 0 && changed == 2 && are(right_next, (uint32_t[]){2234, 2315, 9}, 3));
    answer = unison_part_round(TEXT("field a = 0; field b = 0; next a = b; next b = total n.a;"), left_ids, 3, LEFT_LISTS, NO_WEIGHTS, 0, pairs, 6, left_next, 2, &changed);
    is("part, two fields and one own node", answer == 0 && changed == 1 && are(left_next, (uint32_t[]){2, 3, 9}, 3));
    answer = unison_part_round(TEXT(distance), left_ids, 3, LEFT_LISTS, NO_WEIGHTS, 0, far, 3, right_next, 0, &changed);
    is("part, no own node", answer == 0 && changed == 0 && are(right_next, (uint32_t[]){2234, 2315, 9}, 3));
}

/* The answer for the left part with so many numbers, words and room; and that words and the number of changed nodes stay. */
static void part_fault_is(const char *what, const char *program, const uint32_t neighbours[3], size_t ids, size_t words, size_t room, uint32_t wanted) {
    const uint32_t from[] = {0, FAR, FAR, FAR, FAR, FAR};
    uint32_t to[] = {9, 9, 9, 9};
    size_t changed = 7;
    uint32_t answer = unison_part_round(TEXT(program), left_ids, ids, left_offsets, 4, neighbours, 3, NO_WEIGHTS, 0, from, words, to, room, &changed);
    is(what, answer == wanted && changed == 7 && are(to, (uint32_t[]){9, 9, 9, 9}, 4));
}

static void part_faults(void) {
    const uint32_t loose_neighbours[] = {1, 0, 3};
    part_fault_is("part, a program that breaks off", "field", loose_neighbours, 2, 3, 2, 18);
    part_fault_is("part, a neighbour that is no node", distance, loose_neighbours, 2, 3, 2, 147);
    part_fault_is("part, a number too few", distance, left_neighbours, 2, 2, 4, 150);
    part_fault_is("part, a word too few", distance, left_neighbours, 3, 2, 4, 149);
    part_fault_is("part, a word too many", distance, left_neighbours, 3, 4, 4, 149);
    part_fault_is("part, more room than nodes", distance, left_neighbours, 3, 3, 4, 151);
    part_fault_is("part, room for half a node", "field a = 0; field b = 0; next a = b;", left_neighbours, 3, 6, 3, 151);
    part_fault_is("part, no field and room", "", left_neighbours, 3, 0, 1, 151);
}

int main(void) {
    spelling();
    expansion();
    refused_constants();
    refused_models();
    rounds();
    rounds_from_a_report();
    watched();
    settling();
    replayed();
    told();
    told_faults();
    faults();
    lists();
    large_rounds();
    large_faults();
    large_watched();
    large_watch_faults();
    large_counted();
    large_count_faults();
    part_rounds();
    part_faults();
    printf("%d passed, %d failed\n", passed, failed);
    return failed != 0;
}
