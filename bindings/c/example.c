/* example COSTS: calls each function of the library on good and on bad input, and ends with the line of the first check that fails. */
#include "clarity.h"
#include <stdio.h>
#include <stdlib.h>
#include <string.h>

#define check(it)                                                                                                                         \
    do {                                                                                                                                  \
        if (!(it)) {                                                                                                                      \
            fprintf(stderr, "%s:%d: %s\n", __FILE__, __LINE__, #it);                                                                      \
            exit(1);                                                                                                                      \
        }                                                                                                                                 \
    } while (0)

#define SENDER "SP000000000000000000002Q6VF78"
#define HOLDER "SP2J6ZY48GV1EZ5V2V5RB9MP66SW86PYKKNRV9EJ7"
#define FILE_OF(entries) "{\"version\": 1, \"genesis\": [], \"entries\": [" entries "]}"

static uint8_t out[1 << 16];
static size_t needed;

/* Bytes, and where its pieces end. */
struct pieces {
    uint8_t bytes[1 << 12];
    size_t length, ends[16], count;
};

static void add(struct pieces *to, const void *piece, size_t length) {
    memcpy(to->bytes + to->length, piece, length);
    to->length += length;
    to->ends[to->count++] = to->length;
}

static void add_text(struct pieces *to, const char *piece) {
    add(to, piece, strlen(piece));
}

/* Answers a request of texts, the first `words` of which are its words. */
static uint32_t answer(size_t words, size_t count, const char *const *texts, size_t room) {
    struct pieces request = {0};
    for (size_t i = 0; i < count; i++) add_text(&request, texts[i]);
    return clarity_answer(request.bytes, request.length, request.ends, request.count, words, out, room, &needed);
}

static int is_out(const char *text) {
    return needed == strlen(text) && memcmp(out, text, needed) == 0;
}

static const uint8_t *at(const char *text) {
    return (const uint8_t *)text;
}

static void whole_answers(void) {
    const char *wire[] = {"wire", "u7"};
    check(answer(2, 2, wire, sizeof out) == CLARITY_DONE);
    check(is_out("0x0100000000000000000000000000000007\n"));
    size_t length = needed;
    check(answer(2, 2, wire, length) == CLARITY_DONE && needed == length);
    memset(out, '.', length);
    check(answer(2, 2, wire, length - 1) == CLARITY_WRITE && needed == length && out[length - 2] == '7' && out[length - 1] == '.');
    memset(out, '.', length);
    check(answer(2, 2, wire, 5) == CLARITY_WRITE && needed == length && memcmp(out, "0x010.", 6) == 0);
    check(answer(2, 2, wire, 0) == CLARITY_WRITE && needed == length);
    const char *no_value[] = {"value", "0x0703ff"};
    check(answer(2, 2, no_value, sizeof out) == CLARITY_VALUE && is_out("refused Extra 2\n"));
    const char *call[] = {"call", "inc", "add1", "41", "inc", "(define-read-only (add1 (x int)) (+ x 1))"};
    check(answer(4, 6, call, sizeof out) == CLARITY_DONE);
    check(is_out("0 deploy '" SENDER ".main done\n  cost 2 0 0 2 41\n  deploy-bound 2 0 0 2 41\n  bound add1 5 0 0 0 0 int\n"
                 "1 call '" SENDER ".main add1 value 42\n  cost 5 0 0 0 0\n"));
    check(answer(4, 4, call, sizeof out) == CLARITY_READ && needed == 0);
    check(answer(0, 0, call, sizeof out) == CLARITY_USAGE && is_out("usage: clarity COMMAND WORDS\n"));
    call[5] = "(define-read-only (add1 (x int)) (+ x \"1";
    check(answer(4, 6, call, sizeof out) == CLARITY_REFUSED);
    check(is_out("0 deploy '" SENDER ".main refused E7 ContractRefused T4 Unclosed 38..39\n"));
}

static void values(void) {
    const uint8_t seven[] = {1, 0, 0, 0, 0, 0, 0, 0, 0, 0, 0, 0, 0, 0, 0, 0, 7};
    check(clarity_value_wire(at("u7"), 2, out, sizeof out, &needed) == CLARITY_DONE);
    check(needed == sizeof seven && memcmp(out, seven, needed) == 0);
    check(clarity_value_wire(at("u7"), 2, out, 3, &needed) == CLARITY_WRITE && needed == sizeof seven && memcmp(out, seven, 3) == 0);
    check(clarity_value_wire(at("u7"), 2, out, 0, &needed) == CLARITY_WRITE && needed == sizeof seven);
    check(clarity_value_wire(at("u"), 1, out, sizeof out, &needed) == CLARITY_VALUE && needed == 0);
    check(clarity_value_text(seven, sizeof seven, out, sizeof out, &needed) == CLARITY_DONE && is_out("u7"));
    check(clarity_value_text(seven, sizeof seven, out, 1, &needed) == CLARITY_WRITE && needed == 2 && out[0] == 'u');
    check(clarity_value_text(seven, 16, out, sizeof out, &needed) == CLARITY_VALUE && needed == 0);
    check(clarity_value_text(at(""), 0, out, sizeof out, &needed) == CLARITY_VALUE && needed == 0);
}

static void no_requests(void) {
    const char *call[] = {"call", "inc", "add1", "41", "inc", ""};
    check(answer(4, 5, call, sizeof out) == CLARITY_REQUEST && needed == 0);
    check(answer(7, 6, call, sizeof out) == CLARITY_REQUEST);
    const char *bad[] = {"wire", "\xff"};
    check(answer(2, 2, bad, sizeof out) == CLARITY_REQUEST);
    size_t falls[] = {3, 2}, beyond[] = {3, 9}, greatest[] = {(size_t)-1};
    check(clarity_answer(at("wire"), 4, falls, 2, 2, out, sizeof out, &needed) == CLARITY_REQUEST);
    check(clarity_answer(at("wire"), 4, beyond, 2, 2, out, sizeof out, &needed) == CLARITY_REQUEST);
    check(clarity_answer(at("wire"), 4, greatest, 1, 1, out, sizeof out, &needed) == CLARITY_REQUEST);
    check(clarity_answer(at(""), 0, falls, 0, 0, out, sizeof out, &needed) == CLARITY_USAGE);
}

/* A source of 16 MiB is read, one byte more isn't. */
static void long_files(void) {
    size_t most = (size_t)1 << 24, names = strlen("callf.clarff.clar");
    uint8_t *bytes = malloc(names + most + 1);
    check(bytes != 0);
    memcpy(bytes, "callf.clarff.clar", names);
    memset(bytes + names, ' ', most + 1);
    size_t ends[] = {4, 10, 11, names, names + most + 1};
    check(clarity_answer(bytes, ends[4], ends, 5, 3, out, sizeof out, &needed) == CLARITY_FILE);
    check(is_out("bad file f.clar TooLong\n"));
    ends[4]--;
    check(clarity_answer(bytes, ends[4], ends, 5, 3, out, sizeof out, &needed) == CLARITY_REFUSED);
    free(bytes);
}

static int is_text(clarity_node *node, const char *text) {
    needed = clarity_node_copy(node, out, sizeof out);
    return needed == clarity_node_length(node) && is_out(text);
}

static uint32_t run(clarity_node *node, const char *file) {
    return clarity_node_run(node, at(file), strlen(file));
}

static uint32_t open_node(clarity_costs *costs, const char *file, clarity_node *node) {
    static const uint8_t key[16] = "not so random..";
    return clarity_node_open(costs, at(file), strlen(file), key, sizeof key, node);
}

static void closed_handles(void) {
    clarity_node node = CLARITY_NO_NODE;
    check(run(&node, "{}") == CLARITY_CLOSED && clarity_node_state(&node) == CLARITY_CLOSED);
    check(clarity_node_call(&node, at(""), 0, (size_t[]){0}, 0, (uint64_t[]){0}, 0) == CLARITY_CLOSED);
    check(clarity_node_length(&node) == 0 && clarity_node_copy(&node, out, sizeof out) == 0);
    check(clarity_node_height(&node) == 0 && clarity_node_done(&node) == 0);
    check(clarity_node_check(&node, at(""), 0, 1, at(""), 0) == CLARITY_CLOSED && clarity_node_count(&node) == 0);
    check(clarity_node_numbers(&node, (uint64_t[]){0}, 1) == 0);
    clarity_node_close(&node);
    clarity_costs costs = CLARITY_NO_COSTS;
    check(open_node(&costs, "", &node) == CLARITY_CLOSED);
    check(clarity_costs_read(at("{}"), 2, &costs) == CLARITY_FILE);
    check(open_node(&costs, "", &node) == CLARITY_CLOSED);
    check(clarity_costs_read(at(""), 0, &costs) == CLARITY_DONE);
    check(open_node(&costs, "[]", &node) == CLARITY_FILE);
    check(clarity_node_state(&node) == CLARITY_CLOSED);
    clarity_costs_close(&costs);
    clarity_costs_close(&costs);
    check(open_node(&costs, "", &node) == CLARITY_CLOSED);
}

#define COUNTER                                                                                                                           \
    "{\"deploy\": {\"sender\": \"" SENDER "\", \"name\": \"n\", \"source\": \"(define-data-var n uint u0)"                                \
    "(define-public (add (x uint)) (begin (print x) (var-set n (+ (var-get n) x)) (ok (var-get n))))\"}}"
#define ADD "{\"call\": {\"sender\": \"" SENDER "\", \"contract\": \"" SENDER ".n\", \"function\": \"add\", \"args\": [\"u2\"]}}"
#define ADDED(number, sum)                                                                                                                \
    number " call '" SENDER ".n add ok u" sum "\n  cost 11 2 34 1 17\n  event print '" SENDER ".n u2\n"
#define STATE(sum) "stx '" HOLDER " u9\nvar '" SENDER ".n n u" sum "\n"

static void files_of_entries(clarity_node *node) {
    check(run(node, FILE_OF(COUNTER)) == CLARITY_DONE && clarity_node_done(node) == 1);
    check(run(node, FILE_OF(ADD ", " ADD)) == CLARITY_DONE && clarity_node_done(node) == 2);
    check(is_text(node, ADDED("0", "2") ADDED("1", "4")));
    check(clarity_node_copy(node, out, 7) == 7 && memcmp(out, "0 call ", 7) == 0);
    check(clarity_node_state(node) == CLARITY_DONE && is_text(node, STATE("4")));
    check(run(node, FILE_OF("{\"block\": {\"height\": 5}}")) == CLARITY_DONE && clarity_node_height(node) == 5);
    check(run(node, FILE_OF(ADD ", {\"block\": {\"height\": 4}}")) == CLARITY_FALLS && clarity_node_length(node) == 0);
    check(run(node, "{") == CLARITY_FILE && is_text(node, "bad file transactions NotJson\n"));
    check(run(node, FILE_OF("{\"block\": {\"height\": \"6\"}}")) == CLARITY_FILE);
    check(is_text(node, "bad file transactions BadValue /entries/0/block/height\n"));
    const char *holders = "{\"version\": 1, \"genesis\": [{\"principal\": \"" HOLDER "\", \"stx\": \"u1\"}], \"entries\": []}";
    check(run(node, holders) == CLARITY_HOLDERS && clarity_node_length(node) == 0);
    check(clarity_node_state(node) == CLARITY_DONE && is_text(node, STATE("4")));
}

/* The call `add u2` in parts. */
static struct pieces parts(void) {
    uint8_t sender[22] = {5, 22}, contract[24] = {6, 22}, two[17] = {1};
    contract[22] = 1;
    contract[23] = 'n';
    two[16] = 2;
    struct pieces call = {0};
    add(&call, sender, sizeof sender);
    add(&call, contract, sizeof contract);
    add_text(&call, "add");
    add(&call, two, sizeof two);
    return call;
}

static void calls_in_parts(clarity_node *node) {
    struct pieces p = parts();
    uint64_t most[] = {11, 2, 34, 1, 17}, few[] = {11, 2, 34, 1, 16};
    check(clarity_node_peek(node, p.bytes, p.length, p.ends, p.count, most, 0) == CLARITY_DONE && is_text(node, ADDED("0", "6")));
    check(clarity_node_call(node, p.bytes, p.length, p.ends, p.count, most, 5) == CLARITY_DONE && is_text(node, ADDED("0", "6")));
    check(clarity_node_call(node, p.bytes, p.length, p.ends, p.count, few, 5) == CLARITY_DONE);
    needed = clarity_node_copy(node, out, sizeof out);
    check(strstr((const char *)out, " aborted A8 CostLimit write_length 17 16\n") != 0);
    check(clarity_node_state(node) == CLARITY_DONE && is_text(node, STATE("6")));
    /* no calls: four limits, a contract as the sender, an argument that is cut short, two pieces */
    check(clarity_node_call(node, p.bytes, p.length, p.ends, p.count, most, 4) == CLARITY_REQUEST);
    p.bytes[0] = 6;
    check(clarity_node_call(node, p.bytes, p.length, p.ends, p.count, most, 5) == CLARITY_REQUEST);
    p.bytes[0] = 5;
    p.ends[3]--;
    check(clarity_node_call(node, p.bytes, p.length, p.ends, p.count, most, 5) == CLARITY_REQUEST);
    check(clarity_node_call(node, p.bytes, p.length, p.ends, 2, most, 5) == CLARITY_REQUEST);
    check(clarity_node_state(node) == CLARITY_DONE && is_text(node, STATE("6")));
}

static uint32_t check_source(clarity_node *node, const char *source) {
    uint8_t contract[24] = {6, 22};
    contract[22] = 1;
    contract[23] = 'm';
    return clarity_node_check(node, contract, sizeof contract, 1, at(source), strlen(source));
}

static int are_numbers(clarity_node *node, size_t count, const uint64_t *numbers) {
    uint64_t all[16];
    return clarity_node_count(node) == count && clarity_node_numbers(node, all, 16) == count && memcmp(all, numbers, count * 8) == 0;
}

/* Sources beside the contract `n`, whose function adds to its number. */
static void checks(clarity_node *node) {
    const char *caller = "(define-read-only (one) 1)(define-public (both (x uint)) (contract-call? .n add x))";
    const uint64_t bounds[] = {3, 0, 0, 3, 83, 2, 0, 0, 0, 0, 15, 3, 156, 1, 17};
    check(check_source(node, caller) == CLARITY_DONE && is_text(node, "one\nboth\n"));
    check(are_numbers(node, 15, bounds));
    uint64_t few[2] = {0, 9};
    check(clarity_node_numbers(node, few, 1) == 1 && few[0] == bounds[0] && few[1] == 9);
    check(check_source(node, "(define-read-only (f) (unwrap-panic none))") == CLARITY_REFUSED && is_text(node, "C7 Undetermined\n"));
    check(are_numbers(node, 2, (uint64_t[]){22, 41}));
    check(check_source(node, "(define-read-only (f) (g))(define-read-only (g) (f))") == CLARITY_REFUSED && is_text(node, "O1 Cycle\nf\ng\n"));
    check(check_source(node, "") == CLARITY_DONE && is_text(node, "") && clarity_node_count(node) == 5);
    check(clarity_node_check(node, at("n"), 1, 1, at(""), 0) == CLARITY_REQUEST && clarity_node_count(node) == 0);
    check(clarity_node_state(node) == CLARITY_DONE && is_text(node, "var '" SENDER ".n n u2\n"));
}

static void nodes(const char *file) {
    const char *first = "{\"version\": 1, \"genesis\": [{\"principal\": \"" HOLDER "\", \"stx\": \"u9\"}], \"entries\": []}";
    clarity_costs costs = CLARITY_NO_COSTS;
    clarity_node node = CLARITY_NO_NODE, other = CLARITY_NO_NODE, empty = CLARITY_NO_NODE;
    check(clarity_costs_read(at(file), strlen(file), &costs) == CLARITY_DONE);
    check(open_node(&costs, first, &node) == CLARITY_DONE);
    check(open_node(&costs, first, &other) == CLARITY_DONE && clarity_node_length(&other) == 0);
    check(clarity_node_open(&costs, at(""), 0, at(""), 0, &empty) == CLARITY_DONE && clarity_node_height(&empty) == 0);
    clarity_costs_close(&costs);
    files_of_entries(&node);
    calls_in_parts(&node);
    check(clarity_node_state(&other) == CLARITY_DONE && is_text(&other, "stx '" HOLDER " u9\n"));
    check(clarity_node_state(&empty) == CLARITY_DONE && is_text(&empty, ""));
    check(run(&empty, FILE_OF(COUNTER ", " ADD)) == CLARITY_DONE && clarity_node_done(&empty) == 2);
    checks(&empty);
    clarity_node_close(&node);
    clarity_node_close(&node);
    check(clarity_node_state(&node) == CLARITY_CLOSED);
    clarity_node_close(&other);
    clarity_node_close(&empty);
}

int main(int count, char **words) {
    check(count == 2);
    static char costs[1 << 14];
    FILE *file = fopen(words[1], "rb");
    check(file != 0);
    costs[fread(costs, 1, sizeof costs - 1, file)] = 0;
    fclose(file);
    whole_answers();
    values();
    no_requests();
    long_files();
    closed_handles();
    nodes(costs);
    puts("each call did what it is to do");
    return 0;
}
