/* Lumpitseha, the contract engine for Clarity, as a library. docs/EMBEDDING.md says how it is built and what is proved of it.
 *
 * Nothing checks a caller. Each call relies on this:
 *
 * - A pointer leads to as many items as the length behind it says. It isn't null, also where that length is 0: pass any address then.
 * - What a call writes (out, needed, costs, node) overlaps nothing else that it is given, and no other thread uses what a call is given
 *   while the call runs. So a handle is used by one thread at a time. Calls on different handles may run in different threads.
 * - malloc, realloc and free belong to one allocator, and no call is made from a signal handler.
 * - The stack has 2 MiB left.
 *
 * No call ends the process, prints, reads or writes a file, or keeps a pointer of its caller's. */
#ifndef CLARITY_H
#define CLARITY_H

#include <stddef.h>
#include <stdint.h>

/* The version of this header and of the library that comes with it. */
#define CLARITY_VERSION "0.1.0"
#define CLARITY_VERSION_MAJOR 0
#define CLARITY_VERSION_MINOR 1
#define CLARITY_VERSION_PATCH 0

#ifdef __cplusplus
extern "C" {
#else
#include <stdbool.h>
#endif

/* What a call returns. 0 to 9 are the statuses of the program clarity (docs/REPORT.md). */
enum clarity_status {
    CLARITY_DONE = 0,
    CLARITY_USAGE = 2,    /* the words are no command */
    CLARITY_READ = 3,     /* a file that the words name isn't there */
    CLARITY_WRITE = 4,    /* out is too short: it has a first part of the answer */
    CLARITY_FILE = 5,     /* a file is longer than 16 MiB, or not in its format */
    CLARITY_REFUSED = 6,  /* a contract of a check or the deployment of call is refused, or audit or verify says no */
    CLARITY_FAILED = 7,   /* the deployment of call aborts, or its call is an err, aborted or refused */
    CLARITY_VALUE = 8,    /* a word, a text or bytes are no value, or a word names a row that isn't there */
    CLARITY_MEMORY = 9,   /* memory ran out */
    CLARITY_REQUEST = 10, /* the bytes are no request, or no call */
    CLARITY_CLOSED = 11,  /* the handle has no node, or no table of costs */
    CLARITY_FALLS = 12,   /* a block's height is below the node's */
    CLARITY_HOLDERS = 13  /* the file has holders or epochs, which a node has from its opening */
};

/* ---- Whole answers */

/* Does what the program does for some words over files in memory, and returns its status. The bytes are cut at ends: a piece ends at
 * its number there, and begins where the one before it ends, the first at 0. The first `words` pieces are the words, the others by
 * turns the names and contents of files; of two files with one name the first counts. What the program would write is copied to out,
 * and *needed says how many bytes that is.
 *
 * CLARITY_WRITE: *needed is above out_length, and out is full of the first of these bytes; call again with as long an out as is needed.
 * CLARITY_REQUEST: an end is below the one before it or above bytes_length, there are fewer pieces than words, a name has no content,
 * or a word or a name isn't UTF-8. */
uint32_t clarity_answer(const uint8_t *bytes, size_t bytes_length, const size_t *ends, size_t ends_length, size_t words, uint8_t *out,
                        size_t out_length, size_t *needed);

/* ---- Values */

/* The wire form (SIP-005) of the value that a text stands for (docs/TEXT.md), and the text of the value whose wire form the bytes are.
 * The result is copied to out, and *needed says how many bytes that is.
 *
 * CLARITY_WRITE: as above.
 * CLARITY_VALUE: the text stands for no value, or the bytes are the wire form of none. */
uint32_t clarity_value_wire(const uint8_t *text, size_t text_length, uint8_t *out, size_t out_length, size_t *needed);
uint32_t clarity_value_text(const uint8_t *bytes, size_t bytes_length, uint8_t *out, size_t out_length, size_t *needed);

/* ---- A table of costs */

/* A handle. Begin with CLARITY_NO_COSTS; copy it nowhere, and change nothing in it. */
typedef struct clarity_costs {
    uint8_t *at;
    bool is_open;
} clarity_costs;

#define CLARITY_NO_COSTS {NULL, false}

/* Reads the table of a cost file, or the unit table where file_length is 0. Read once, it serves any number of nodes. Close a table that
 * the handle has before: it is lost otherwise.
 *
 * CLARITY_FILE, CLARITY_MEMORY: the handle has no table. clarity_answer with `run` says what is wrong with a file. */
uint32_t clarity_costs_read(const uint8_t *file, size_t file_length, clarity_costs *costs);

/* Frees the table, where there is one. Nodes that were opened under it keep their costs. */
void clarity_costs_close(clarity_costs *costs);

/* ---- A node between calls */

/* A handle. Begin with CLARITY_NO_NODE; copy it nowhere, and change nothing in it. */
typedef struct clarity_node {
    uint8_t *at;
    bool is_open;
} clarity_node;

#define CLARITY_NO_NODE {NULL, false}

/* Opens a node under a table of costs. Its holders and epochs are those of a transaction file, whose entries aren't done; where
 * file_length is 0 it has none. Close a node that the handle has before: it is lost otherwise.
 *
 * A node that takes contracts or calls from strangers needs a key of 16 or more random bytes, its own (getrandom, /dev/urandom). Who
 * knows the key, as everybody does where key_length is 0, can choose names, keys and principals that collide in the node's tables, and
 * then each look-up takes time that grows with their number. No answer depends on the key.
 *
 * CLARITY_FILE, CLARITY_MEMORY, CLARITY_CLOSED: the handle has no node. clarity_answer with `run` says what is wrong with a file. */
uint32_t clarity_node_open(clarity_costs *costs, const uint8_t *file, size_t file_length, const uint8_t *key, size_t key_length,
                           clarity_node *node);

/* Does the entries of a transaction file, one after another. The text is their lines, numbered from 0 (docs/REPORT.md). An entry that
 * errs, aborts or is refused has its lines, and leaves the node as it was.
 *
 * CLARITY_FILE: nothing is done, and the text is the line that says what is wrong.
 * CLARITY_FALLS, CLARITY_HOLDERS: nothing is done, and there is no text.
 * CLARITY_MEMORY: as many entries are done as clarity_node_done says, and the text is a first part of their lines. */
uint32_t clarity_node_run(clarity_node *node, const uint8_t *file, size_t file_length);

/* Does one call, in allow mode and without post-conditions. The bytes are cut at ends, as above, into the sender, the contract, the
 * name of the function, and each argument: principals and arguments as values in their wire form (SIP-005), the name in UTF-8. There
 * are five limits, in the order of the dimensions, or none. The text is the lines of the call, with the number 0.
 *
 * A call without limits may take practically for ever: set the function's printed bounds as limits, or your own.
 * CLARITY_REQUEST: nothing is done. CLARITY_MEMORY: clarity_node_done says whether the call is done. */
uint32_t clarity_node_call(clarity_node *node, const uint8_t *bytes, size_t bytes_length, const size_t *ends, size_t ends_length,
                           const uint64_t *limits, size_t limits_length);

/* The text is the lines that such a call would have. The node stays as it is. */
uint32_t clarity_node_peek(clarity_node *node, const uint8_t *bytes, size_t bytes_length, const size_t *ends, size_t ends_length,
                           const uint64_t *limits, size_t limits_length);

/* Checks a source of version 1 or 2 of the language as a contract, a principal in its wire form, that would be deployed on the node,
 * under the costs of its height. Nothing is evaluated, and the node stays as it is. It takes time for each function that is deployed.
 *
 * CLARITY_DONE: the source is accepted; whether the contract's name is taken isn't looked at. The numbers are five for its deployment
 * and five for each function, in the order of the dimensions: what it is charged at most, as limits (a bound above 2^64-1 as 2^64-1).
 * The text has the names of the functions, in the order of the source, each with a line feed behind it.
 * CLARITY_REFUSED: the numbers are two, where the bytes begin and end that break a rule. The text has the rule with a line feed, as
 * "C7 Undetermined" (docs/RULES.md), and behind it the names of a cycle or the dimension of a bound, each with a line feed.
 * CLARITY_REQUEST: it is no principal of a contract, or another version. */
uint32_t clarity_node_check(clarity_node *node, const uint8_t *contract, size_t contract_length, uint32_t version, const uint8_t *source,
                            size_t source_length);

/* The text is the lines of the state. */
uint32_t clarity_node_state(clarity_node *node);

/* The node's height, and how many entries the last run or call did. 0 where there is no node. */
uint64_t clarity_node_height(clarity_node *node);
uint32_t clarity_node_done(clarity_node *node);

/* How many bytes the text of the last call has; 0 where there is no node. */
size_t clarity_node_length(clarity_node *node);

/* Copies as much of that text as out has room for, and returns how many bytes that is. */
size_t clarity_node_copy(clarity_node *node, uint8_t *out, size_t out_length);

/* How many numbers the last check left, and a copy of as many of them as out has room for, which returns how many that is. 0 where
 * there is no node. */
size_t clarity_node_count(clarity_node *node);
size_t clarity_node_numbers(clarity_node *node, uint64_t *out, size_t out_length);

/* Frees the node, where there is one. The handle has none then, so a second call does nothing. */
void clarity_node_close(clarity_node *node);

#ifdef __cplusplus
}
#endif

#endif
