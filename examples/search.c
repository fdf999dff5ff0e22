/* Case A through the C interface (include/hopmap.h): prints four_devices/result.txt, and on standard
 * error the census, how many devices stand at each distance.
 *
 *     (cd crates/capi && rt lib) && mkdir -p target
 *     gcc -std=c99 -Wall -Wextra -Werror -Iinclude examples/search.c crates/capi/out/libcapi.a -o target/search
 *     target/search
 */
#include <inttypes.h>
#include <stdio.h>
#include "hopmap.h"

#if HOPMAP_VERSION != 2
#error "written for version 2 of hopmap.h"
#endif

/* Devices, links and workers of case A. */
enum { N = 4, M = 4, P = 2, SOURCE = 0 };

/* A list as the calls take it: where it is, and how many places it has. */
#define LIST(list) list, sizeof list / sizeof *list

/* The header's name of a number that the search gives. */
static const char *name(size_t number) {
#define NAME(number) case number: return #number
    switch (number) {
    NAME(HOPMAP_SUCCESS);
    NAME(HOPMAP_BAD_LENGTH);
    NAME(HOPMAP_BAD_SIZE);
    NAME(HOPMAP_BAD_TARGET);
    NAME(HOPMAP_BAD_INDEX);
    NAME(HOPMAP_REPEATED);
    NAME(HOPMAP_UNREACHED);
    NAME(HOPMAP_BAD_SOURCE);
    NAME(HOPMAP_BAD_WORKERS);
    NAME(HOPMAP_BAD_SCHEDULE);
    NAME(HOPMAP_SHORT_LIST);
    NAME(HOPMAP_UNFINISHED);
    default: return "no number of the search";
    }
#undef NAME
}

/* A distance or parent, as `hopmap` prints it. */
static void print_label(uint16_t label) {
    if (label == HOPMAP_UNSET) {
        printf(" -");
    } else {
        printf(" %" PRIu16, label);
    }
}

/* The census, place by place. */
static void print_census(const uint16_t *census, size_t places) {
    fprintf(stderr, "census:");
    for (size_t h = 0; h < places; h++) {
        fprintf(stderr, " %" PRIu16, census[h]);
    }
    fprintf(stderr, "\n");
}

int main(void) {
    const uint8_t file[HOPMAP_FILE_BYTES(N, M)] = {4, 0, 4, 0, 1, 0, 3, 0, 4, 0, 0, 0, 1, 0,
                                                   2, 0, 2, 0, 0, 0, 3, 0, 0, 0, 3, 0, 0, 0};
    const uint8_t schedule[] = {0, 0, 0, 0, 0, 0, 0, 0, 0, 192, 72, 0, 8, 0, 8, 0, 8, 8, 0, 0, 8, 192, 0, 0, 192};
    uint16_t offsets[HOPMAP_OFFSET_PLACES(N)] = {0}, targets[M] = {0}, marks[M] = {0};
    uint16_t distances[N] = {0}, parents[N] = {0}, census[N] = {0};
    uint16_t left[HOPMAP_NODE_PLACES(P, N)] = {0};
    uint16_t right[HOPMAP_NODE_PLACES(P, N)] = {0};
    uint16_t values[HOPMAP_NODE_PLACES(P, N)] = {0};
    uint32_t answer[4] = {0};

    const size_t number = hopmap_search(LIST(file), SOURCE, P, LIST(schedule),
                                        LIST(offsets), LIST(targets), LIST(marks), LIST(distances), LIST(parents),
                                        LIST(census), LIST(left), LIST(right), LIST(values), answer);
    printf("%" PRIu32 " %" PRIu32 " %" PRIu32 " %" PRIu32 "\n", answer[0], answer[1], answer[2], answer[3]);
    if (number != HOPMAP_SUCCESS) {
        fprintf(stderr, "hopmap_search: %zu, %s\n", number, name(number));
    }
    if (number == HOPMAP_SUCCESS || number == HOPMAP_UNFINISHED) {
        print_census(LIST(census));
        for (int v = 0; v < N; v++) {
            printf("%d", v);
            print_label(distances[v]);
            print_label(parents[v]);
            printf("\n");
        }
    }
    return (int)number;
}
