/* library COSTS ROW COUNT: makes the calls of a row of bench/library.sh so often. */
#include "clarity.h"
#include <stdio.h>
#include <stdlib.h>
#include <string.h>

#define SENDER "SP000000000000000000002Q6VF78"
#define FIRST "{\"version\": 1, \"genesis\": [], \"entries\": ["
#define DEPLOY                                                                                                                            \
    "{\"deploy\": {\"sender\": \"" SENDER "\", \"name\": \"n\", \"source\": \"(define-data-var n uint u0)"                                \
    "(define-public (add (x uint)) (begin (print x) (var-set n (+ (var-get n) x)) (ok (var-get n))))\"}}"
#define ADD "{\"call\": {\"sender\": \"" SENDER "\", \"contract\": \"" SENDER ".n\", \"function\": \"add\", \"args\": [\"u2\"]}}"

static uint8_t out[1 << 24];
static char costs[1 << 14], file[1 << 24], request[1 << 25];

static const uint8_t *at(const char *text) {
    return (const uint8_t *)text;
}

static void done(uint32_t number) {
    if (number != CLARITY_DONE) {
        fprintf(stderr, "status %u\n", number);
        exit(1);
    }
}

/* A table of costs, and a node with a contract. */
static clarity_costs table = CLARITY_NO_COSTS;
static clarity_node node = CLARITY_NO_NODE;

static void open_node(clarity_node *it) {
    done(clarity_node_open(&table, at(""), 0, at("16 bytes of a key"), 16, it));
}

/* A file with a deployment and so many calls. */
static void make_file(int calls) {
    char *end = file + sprintf(file, FIRST DEPLOY);
    for (int i = 0; i < calls; i++) end += sprintf(end, ", " ADD);
    sprintf(end, "]}");
}

static void run_program(void) {
    const char *pieces[] = {"run", "costs", "file", "costs", costs, "file", file};
    size_t ends[7], end = 0, needed;
    for (int i = 0; i < 7; i++) {
        memcpy(request + end, pieces[i], strlen(pieces[i]));
        ends[i] = end += strlen(pieces[i]);
    }
    done(clarity_answer(at(request), end, ends, 7, 3, out, sizeof out, &needed));
}

/* ---- one call of each row */

/* `add u2` in parts. */
static const uint8_t parts[66] = {5, 22, [22] = 6, 22, [44] = 1, 'n', 'a', 'd', 'd', 1, [65] = 2};
static const size_t ends[] = {22, 46, 49, 66};
static const uint64_t limits[] = {11, 2, 34, 1, 17};

static void call(void) {
    done(clarity_node_call(&node, parts, sizeof parts, ends, 4, limits, 5));
}

static void peek(void) {
    done(clarity_node_peek(&node, parts, sizeof parts, ends, 4, limits, 5));
}

static void alone(void) {
    static const char one[] = FIRST ADD "]}";
    done(clarity_node_run(&node, at(one), sizeof one - 1));
}

static void wire(void) {
    size_t needed;
    done(clarity_value_wire(at("u7"), 2, out, sizeof out, &needed));
}

static void open_one(void) {
    clarity_node other = CLARITY_NO_NODE;
    open_node(&other);
    clarity_node_close(&other);
}

static const struct row {
    const char *name;
    void (*act)(void);
} rows[] = {{"call", call}, {"peek", peek}, {"alone", alone}, {"wire", wire}, {"open", open_one}};

int main(int words, char **word) {
    if (words != 4) return 2;
    FILE *from = fopen(word[1], "rb");
    if (from == 0 || fread(costs, 1, sizeof costs - 1, from) == 0) return 2;
    fclose(from);
    int count = atoi(word[3]), is_run = strcmp(word[2], "run") == 0;
    make_file(is_run || strcmp(word[2], "file") == 0 ? count : 0);
    if (is_run) {
        run_program();
        return 0;
    }
    done(clarity_costs_read(at(costs), strlen(costs), &table));
    open_node(&node);
    done(clarity_node_run(&node, at(file), strlen(file)));
    for (size_t i = 0; i < sizeof rows / sizeof *rows; i++) {
        if (strcmp(rows[i].name, word[2]) == 0) {
            for (int n = 0; n < count; n++) rows[i].act();
        }
    }
    return 0;
}
