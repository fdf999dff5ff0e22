/* Case A's result, checked and laid out through the C interface (include/hopmap.h): writes
 * four_devices/page.txt. Then one parent is made wrong, and both calls must refuse the result. The
 * exit status is 0 where all of this is so.
 *
 *     (cd crates/capi && rt lib) && mkdir -p target
 *     gcc -std=c99 -Wall -Wextra -Werror -Iinclude examples/check_and_page.c crates/capi/out/libcapi.a \
 *         -o target/check_and_page
 *     target/check_and_page
 *
 * x86-64 Linux passes six such arguments in registers. These calls have 13 and 15, so most of them pass on
 * the stack.
 */
#include <stdio.h>
#include <string.h>
#include "hopmap.h"

#if HOPMAP_VERSION != 2
#error "written for version 2 of hopmap.h"
#endif

/* Devices and links of case A. */
enum { N = 4, M = 4, SOURCE = 0 };

/* A list as the calls take it: where it is, and how many places it has. */
#define LIST(list) list, sizeof list / sizeof *list

/* Whether a call gave the number that it must give; where it did not, says so. */
static int gave(const char *call, size_t number, size_t expected) {
    if (number != expected) {
        fprintf(stderr, "%s: %zu instead of %zu\n", call, number, expected);
    }
    return number == expected;
}

int main(void) {
    const uint8_t file[HOPMAP_FILE_BYTES(N, M)] = {4, 0, 4, 0, 1, 0, 3, 0, 4, 0, 0, 0, 1, 0,
                                                   2, 0, 2, 0, 0, 0, 3, 0, 0, 0, 3, 0, 0, 0};
    const uint16_t distances[N] = {0, 1, 1, 2};
    uint16_t parents[N] = {0, 0, 0, 1};
    uint16_t offsets[HOPMAP_OFFSET_PLACES(N)] = {0}, targets[M] = {0}, marks[M] = {0};
    uint8_t page[HOPMAP_PAGE_BYTES(N)] = {0};
    uint8_t no_page[HOPMAP_PAGE_BYTES(N)] = {0};
    const uint8_t zeros[HOPMAP_PAGE_BYTES(N)] = {0};

    size_t number = hopmap_check(LIST(file), SOURCE, LIST(distances), LIST(parents),
                                 LIST(offsets), LIST(targets), LIST(marks));
    if (!gave("hopmap_check", number, HOPMAP_SUCCESS)) return 1;
    number = hopmap_page(LIST(file), SOURCE, LIST(distances), LIST(parents),
                         LIST(offsets), LIST(targets), LIST(marks), LIST(page));
    if (!gave("hopmap_page", number, HOPMAP_SUCCESS)) return 1;
    if (fwrite(page, 1, sizeof page, stdout) != sizeof page) return 1;

    /* Device 0 has no link to device 3. */
    parents[3] = 0;
    number = hopmap_check(LIST(file), SOURCE, LIST(distances), LIST(parents),
                          LIST(offsets), LIST(targets), LIST(marks));
    if (!gave("hopmap_check, a parent wrong", number, HOPMAP_BAD_RESULT)) return 1;
    number = hopmap_page(LIST(file), SOURCE, LIST(distances), LIST(parents),
                         LIST(offsets), LIST(targets), LIST(marks), LIST(no_page));
    if (!gave("hopmap_page, a parent wrong", number, HOPMAP_BAD_RESULT)) return 1;
    if (memcmp(no_page, zeros, sizeof no_page) != 0) return 1;
    fprintf(stderr, "with a wrong parent: %d, HOPMAP_BAD_RESULT, and no page\n", HOPMAP_BAD_RESULT);
    return fflush(stdout) == 0 ? 0 : 1;
}
