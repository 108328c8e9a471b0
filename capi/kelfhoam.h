/* Kelfhoam for C: load, write and redump YAML documents, as packed events (docs/EVENTS.md), in tables that the caller lends.
 *
 * Link with crates/kelfhoam_c/out/libkelfhoam_c.a, which `rt lib` makes in crates/kelfhoam_c. No call allocates, keeps anything between calls,
 * or reaches outside what it is handed. A call trusts that each pointer is aligned for its entries and has that many of them behind it, readable, and
 * where it is not const writable and lent to nobody else during the call; where the length is 0 the pointer may be anything but NULL.
 * It trusts nothing of what the entries hold.
 */
#ifndef KELFHOAM_H
#define KELFHOAM_H

#include <stddef.h>
#include <stdint.h>

#ifdef __cplusplus
extern "C" {
#endif

/* Full-sized tables have so many entries; what a table has beyond that is emptied and not used. */
#define KELFHOAM_NODES 4096
#define KELFHOAM_LINKS 16384
#define KELFHOAM_TEXT 65536
#define KELFHOAM_ANCHORS 4096
#define KELFHOAM_WAITING 16384
#define KELFHOAM_COUNTS 4096
#define KELFHOAM_STEPS 20481

/* A place in the input: bytes, events and columns before it. */
typedef struct {
    uint64_t index;
    uint64_t line;
    uint64_t column;
} kelfhoam_mark;

/* A node; node numbers and places of links begin at 1 and 0: node k is nodes[k - 1], its links are links[first_link] and those after it. */
typedef struct {
    uint8_t kind; /* 1 scalar, 2 sequence, 3 mapping; 0 in an empty entry */
    uint8_t style;
    uint16_t tag_length;
    uint16_t value_length;
    uint16_t filler;
    uint32_t tag_start; /* in the text */
    uint32_t value_start;
    uint32_t first_link;
    uint32_t link_count; /* a mapping's links are key, value, key, value */
    kelfhoam_mark start;
    kelfhoam_mark end;
} kelfhoam_node;

/* Entries of tables that are only worked with; they are zero after each call. */
typedef struct {
    uint8_t bytes[64];
    uint32_t size;
    uint32_t node;
} kelfhoam_anchor;

typedef struct {
    uint32_t references;
    uint32_t anchor;
    uint32_t serialized;
} kelfhoam_counted;

typedef struct {
    uint32_t what;
    uint32_t node;
} kelfhoam_step;

/* What a load tells. Fields that do not belong to the answer are 0. */
typedef struct {
    uint64_t nodes; /* loaded: how many nodes, links, bytes of text and anchors the document has */
    uint64_t links;
    uint64_t text;
    uint64_t anchors;
    uint64_t start_implicit; /* loaded: 1 or 0 */
    uint64_t end_implicit;
    kelfhoam_mark start; /* loaded: where the document's start begins and its end ends */
    kelfhoam_mark end;
    kelfhoam_mark at;    /* refused: where the refused event begins */
    kelfhoam_mark first; /* refused with 27: where the node begins that has the anchor already */
    uint64_t fault;      /* refused with 21: the number of the source's fault and its place */
    uint64_t place;
} kelfhoam_loaded;

/* What a call of a writer tells. Fields that do not belong to the answer are 0. */
typedef struct {
    uint64_t refusal; /* 0: accepted; else the number: 41 to 46, 51 to 59 */
    uint64_t events;  /* how many events were taken */
    uint64_t node;    /* 42 to 45, 58, 59: the node; 0 stands for the stream and the document */
    uint64_t size;    /* 59: the size of the event that did not fit, and the space that was left */
    uint64_t space;
} kelfhoam_called;

/* What redumping tells. */
typedef struct {
    uint64_t documents; /* whole documents loaded and written */
    uint64_t nodes;
    uint64_t links;
    uint64_t events; /* events written */
    uint64_t bytes;  /* bytes written, at the front of out */
    kelfhoam_loaded load;  /* where a load was refused: what it told; else 0 */
    kelfhoam_called write; /* where a call of the writer was refused: what it told; else 0 */
} kelfhoam_redumped;

/* Loads the document after `skip` documents from packed events. 0: it is in the tables. 1: the stream has ended before it. 20 to 30: refused, then
 * all five tables are zero. Each call reads from the start of the input, so that it needs no state. */
uint32_t kelfhoam_load(const uint8_t *input, size_t input_length, uint64_t skip,
                       kelfhoam_node *nodes, size_t nodes_length, uint32_t *links, size_t links_length,
                       uint8_t *text, size_t text_length, kelfhoam_anchor *anchors, size_t anchors_length,
                       uint32_t *waiting, size_t waiting_length, kelfhoam_loaded *told);

/* Makes a writer over out and calls it as `calls` says, one call a byte: 'o' opens, 'd' dumps the document that stands on the first n nodes, 'e' dumps
 * an empty document, 'c' closes; any other byte is no call. told[i] is what the i-th call told; calls without an entry are not made.
 * Answers with the number of bytes at the front of out that hold packed events. */
uint64_t kelfhoam_write(const uint8_t *calls, size_t calls_length,
                        const kelfhoam_node *nodes, size_t nodes_length, const uint32_t *links, size_t links_length,
                        const uint8_t *text, size_t text_length, uint64_t n, uint8_t start_implicit, uint8_t end_implicit,
                        kelfhoam_counted *counting, size_t counting_length, kelfhoam_step *steps, size_t steps_length,
                        uint8_t *out, size_t out_length, kelfhoam_called *told, size_t told_length);

/* Loads every document of the input and writes it again: opens, dumps each, and closes at the stream's end. 0: done. Else the number of the refusal. */
uint32_t kelfhoam_redump(const uint8_t *input, size_t input_length,
                         kelfhoam_node *nodes, size_t nodes_length, uint32_t *links, size_t links_length,
                         uint8_t *text, size_t text_length, kelfhoam_anchor *anchors, size_t anchors_length,
                         uint32_t *waiting, size_t waiting_length,
                         kelfhoam_counted *counting, size_t counting_length, kelfhoam_step *steps, size_t steps_length,
                         uint8_t *out, size_t out_length, kelfhoam_redumped *told);

#ifdef __cplusplus
}
#endif

#endif
