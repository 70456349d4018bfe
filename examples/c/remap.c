/* Plans routine P and runs case 2 (docs/CASES.md). Prints the plan's labels, the copies and flags that the run leaves
 * for each array, what each reference saw and gave, and how often each edge was passed. Then plans routine K, which has
 * a call, and prints its labels.
 */
#include <stdio.h>
#include <stdlib.h>

#include "hpf_remap.h"

static const uint8_t routine[62] = {
    'H', 'P', 'F', 'R', 1, 0,
    18, 0, 1, 0, /* arrays: offset, count */
    22, 0, 8, 0, /* vertices */
    30, 0, 8, 0, /* edges */
    0, 3, 0, 0,  /* one local array, 3 versions, initial 0 */
    0x00, 0x20, 0x41, 0x10, 0x42, 0x40, 0x10, 0x00, /* entry, define, remap 1, read, remap 2, remap 0, read, exit */
    0, 0, 1, 0, 1, 0, 2, 0, 2, 0, 3, 0, 3, 0, 4, 0,
    4, 0, 5, 0, 5, 0, 6, 0, 6, 0, 2, 0, 6, 0, 7, 0, /* edges: from, to */
};

/* Nine vertices, two bytes each; hpf_run is given its length in bytes. */
static const uint8_t path[18] = {0, 0, 1, 0, 2, 0, 3, 0, 4, 0, 5, 0, 6, 0, 2, 0, 3, 0};

static const uint8_t with_call[50] = {
    'H', 'P', 'F', 'R', 1, 0,
    18, 0, 2, 0, /* arrays: offset, count */
    26, 0, 4, 0, /* vertices */
    34, 0, 4, 0, /* edges */
    3, 2, 0, 0,  /* an inout argument, 2 versions, initial 0 */
    1, 2, 0, 0,  /* an in argument, the same */
    0x00, 0x00, 0xC1, 0x61, 0x10, 0x10, 0x00, 0x00, /* entry, call (inout, in; both in version 1), read both, exit */
    0, 0, 1, 0, 1, 0, 2, 0, 2, 0, 1, 0, 2, 0, 3, 0, /* edges: from, to */
};

static unsigned word(const uint8_t *bytes) { return bytes[0] + 256u * bytes[1]; }

static unsigned set(const uint8_t *bytes) { return word(bytes) + 65536u * word(bytes + 2); }

static void refused(const char *call, hpf_outcome outcome) {
    fprintf(stderr, "%s: %llu %llu %llu\n", call, (unsigned long long)outcome.number, (unsigned long long)outcome.first,
            (unsigned long long)outcome.second);
    exit(EXIT_FAILURE);
}

static void print_plan(const uint8_t *plan) {
    unsigned vertices = word(plan + 4);
    const uint8_t *labels = plan + 8 + 4 * vertices;
    for (unsigned v = 0; v < vertices; v++) {
        unsigned first = word(plan + 8 + 4 * v), count = word(plan + 10 + 4 * v);
        for (unsigned i = first; i < first + count; i++) {
            const uint8_t *label = labels + 12 * i;
            if (label[1] == 'N')
                printf("vertex %u: array %u is not copied\n", v, label[0]);
            else
                printf("vertex %u: array %u leaves as version %u, use %c, keep %08x\n", v, label[0], label[2], label[1],
                       set(label + 8));
        }
    }
}

static void print_array(unsigned array, const uint8_t *entry) {
    unsigned copies = word(entry);
    printf("array %u: %u %s, live %08x, current ", array, copies, copies == 1 ? "copy" : "copies", set(entry + 2));
    if (entry[6] == 255)
        printf("none\n");
    else
        printf("%u\n", entry[6]);
}

/* P has no calls: the edges of the expanded routine, of which each has a count behind the records, are the file's. */
static void print_report(const uint8_t *report, size_t length) {
    unsigned arrays = word(routine + 8), edges = word(routine + 16);
    const uint8_t *edge = routine + word(routine + 14), *counts = report + length - 2 * edges;
    for (unsigned a = 0; a < arrays; a++) print_array(a, report + 8 * a);
    for (const uint8_t *record = report + 8 * arrays; record < counts; record += 10)
        printf("step %u: version %u, kind %u, sees %u, gives %u\n", word(record), record[3], record[4],
               word(record + 6), word(record + 8));
    for (unsigned e = 0; e < edges; e++)
        printf("edge %u-%u: passed %u\n", word(edge + 4 * e), word(edge + 4 * e + 2), word(counts + 2 * e));
}

int main(void) {
    uint8_t plan[HPF_LARGEST_PLAN];
    hpf_outcome planned = hpf_plan(routine, sizeof routine, plan, sizeof plan);
    if (planned.number != 0) refused("hpf_plan", planned);
    print_plan(plan);

    /* An empty buffer is too short for any report: answer 2 gives the length needed. */
    hpf_outcome asked = hpf_run(routine, sizeof routine, path, sizeof path, NULL, 0);
    if (asked.number != 2) refused("hpf_run", asked);
    uint8_t *report = malloc(asked.first);
    if (report == NULL) return EXIT_FAILURE;
    hpf_outcome ran = hpf_run(routine, sizeof routine, path, sizeof path, report, asked.first);
    if (ran.number != 0) refused("hpf_run", ran);
    print_report(report, ran.first);
    free(report);

    /* The call is three vertices of the plan: 1, 2 and 3. */
    planned = hpf_plan(with_call, sizeof with_call, plan, sizeof plan);
    if (planned.number != 0) refused("hpf_plan", planned);
    print_plan(plan);
    return EXIT_SUCCESS;
}
