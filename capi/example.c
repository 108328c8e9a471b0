/* Kelfhoam from C: `example FILE` lists the documents in a file of packed events on standard error, and writes them again to standard output.
 *
 *     gcc -std=c11 -I capi -o example capi/example.c -L crates/kelfhoam_c/out -lkelfhoam_c
 *
 * A refusal is told with its number and its place, and ends with status 1 and nothing on standard output; bad usage ends with 2.
 */
#include <stdio.h>
#include <stdlib.h>

#include "kelfhoam.h"

/* All that is lent to the library. */
typedef struct {
    kelfhoam_node nodes[KELFHOAM_NODES];
    uint32_t links[KELFHOAM_LINKS];
    uint8_t text[KELFHOAM_TEXT];
    kelfhoam_anchor anchors[KELFHOAM_ANCHORS];
    uint32_t waiting[KELFHOAM_WAITING];
    kelfhoam_counted counting[KELFHOAM_COUNTS];
    kelfhoam_step steps[KELFHOAM_STEPS];
} tables;

/* Some bytes; NULL where there was no memory, or the file could not be read. */
typedef struct {
    uint8_t *bytes;
    size_t length;
} slice;

static slice read_file(const char *name) {
    slice input = {NULL, 0};
    size_t space = 4096;
    FILE *file = fopen(name, "rb");
    if (file == NULL)
        return input;
    input.bytes = malloc(space);
    while (input.bytes != NULL) {
        size_t got = fread(input.bytes + input.length, 1, space - input.length, file);
        input.length += got;
        if (got == 0)
            break;
        if (input.length == space) {
            uint8_t *larger = realloc(input.bytes, space *= 2);
            if (larger == NULL)
                free(input.bytes);
            input.bytes = larger;
        }
    }
    if (ferror(file)) {
        free(input.bytes);
        input.bytes = NULL;
    }
    fclose(file);
    return input;
}

/* Numbers up to 30 are refusals of a load: 21 is a fault in the packed events themselves. */
static void tell_load(uint32_t number, const kelfhoam_loaded *told) {
    if (number == 21)
        fprintf(stderr, "refused 21 (fault %llu) at byte %llu\n", (unsigned long long)told->fault, (unsigned long long)told->place);
    else
        fprintf(stderr, "refused %u at byte %llu\n", (unsigned)number, (unsigned long long)told->at.index);
}

static void tell_write(uint32_t number, const kelfhoam_called *told) {
    fprintf(stderr, "refused %u at node %llu\n", (unsigned)number, (unsigned long long)told->node);
}

/* Lists every document: whether none was refused. */
static int list(slice input, tables *t) {
    static const char *const kinds[] = {"nothing", "scalar", "sequence", "mapping"};
    for (uint64_t skip = 0;; skip++) {
        kelfhoam_loaded told;
        uint32_t number = kelfhoam_load(input.bytes, input.length, skip, t->nodes, KELFHOAM_NODES, t->links, KELFHOAM_LINKS, t->text, KELFHOAM_TEXT,
                                        t->anchors, KELFHOAM_ANCHORS, t->waiting, KELFHOAM_WAITING, &told);
        if (number == 1)
            return 1;
        if (number != 0) {
            tell_load(number, &told);
            return 0;
        }
        const kelfhoam_node *root = &t->nodes[0];
        fprintf(stderr, "document %llu: %llu nodes, %llu links, %llu bytes of text, %llu anchors; bytes %llu to %llu; root: %s <%.*s> of %u links\n",
                (unsigned long long)skip + 1, (unsigned long long)told.nodes, (unsigned long long)told.links, (unsigned long long)told.text,
                (unsigned long long)told.anchors, (unsigned long long)told.start.index, (unsigned long long)told.end.index, kinds[root->kind],
                (int)root->tag_length, (const char *)t->text + root->tag_start, (unsigned)root->link_count);
    }
}

/* Writes every document again: whether all of it was written. */
static int redump(slice input, tables *t, slice out) {
    kelfhoam_redumped told;
    uint32_t number = kelfhoam_redump(input.bytes, input.length, t->nodes, KELFHOAM_NODES, t->links, KELFHOAM_LINKS, t->text, KELFHOAM_TEXT,
                                      t->anchors, KELFHOAM_ANCHORS, t->waiting, KELFHOAM_WAITING, t->counting, KELFHOAM_COUNTS, t->steps, KELFHOAM_STEPS,
                                      out.bytes, out.length, &told);
    if (number != 0) {
        if (number <= 30)
            tell_load(number, &told.load);
        else
            tell_write(number, &told.write);
        return 0;
    }
    fprintf(stderr, "%llu documents, %llu nodes, %llu links, %llu events, %llu bytes\n", (unsigned long long)told.documents, (unsigned long long)told.nodes,
            (unsigned long long)told.links, (unsigned long long)told.events, (unsigned long long)told.bytes);
    return fwrite(out.bytes, 1, told.bytes, stdout) == told.bytes && fflush(stdout) == 0;
}

int main(int argc, char **argv) {
    if (argc != 2) {
        fprintf(stderr, "usage: example FILE\n");
        return 2;
    }
    slice input = read_file(argv[1]);
    tables *lent = calloc(1, sizeof *lent);
    /* An event has at least 9 bytes, and is written with at most 27 more: a default tag of 21 bytes and an anchor of 6. */
    slice out = {malloc(4 * input.length + 1), 4 * input.length + 1};
    int status = 2;
    if (input.bytes == NULL || lent == NULL || out.bytes == NULL)
        fprintf(stderr, "%s: could not be read, or there is too little memory\n", argv[1]);
    else
        status = list(input, lent) && redump(input, lent, out) ? 0 : 1;
    free(out.bytes);
    free(lent);
    free(input.bytes);
    return status;
}
