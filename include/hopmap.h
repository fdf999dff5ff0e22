/* The C interface of the proved library: reader, writer, search, checker and pages.
 *
 * To link: `rt lib` in the folder crates/capi proves the library and writes out/libcapi.a there, for
 * x86-64 Linux (processors of level x86-64-v2 and above). It needs nothing but memcpy and memset of
 * the C library. examples/search.c, examples/check_and_page.c and examples/search.py show whole calls.
 *
 * Words: n is the file's number of devices (1 to 4,096), m its number of links (0 to 32,768), P the
 * number of workers (1 to 8). The file is the hearing file, the schedule the sheet of event bytes
 * (0 to 5,000,000). A distance or parent of 65,535 is unset.
 *
 * Every function returns a number: 0 is success, any other says what stopped the call. No input is
 * forbidden: a file, a source, a P or a schedule that cannot be taken, and a list that is too short
 * (20), have their numbers. A function tries its numbers in the order that is given with it, and
 * returns the first that applies, or 0 where none does. docs/NUMBERS.md explains them all. What is
 * said of a list below holds with 0; what it holds with any other number, which is mostly what it
 * held before, is in docs/SPECIFICATION.md, section 10.
 *
 * Lists: each is a pointer with its length in places, not bytes, behind it; `answer` alone has a
 * fixed length. A list may be longer than its need, and places past the need are left as they are.
 * No call can test, and every call takes for granted, that
 *   - no pointer is null, not even one with length 0;
 *   - each points to as many places as its length says;
 *   - each is aligned to its type: 16-bit lists to 2 bytes, `answer` to 4;
 *   - each place holds a value at entry. Initialise every list, also one that is only written: C
 *     leaves it undefined what reading an uninitialised object does, and the proofs are about lists
 *     of numbers;
 *   - a list lent for writing (one without const) overlaps no other list of the call;
 *   - during the call no other thread writes a list of the call, nor reads one lent for writing.
 *
 * A call allocates nothing, keeps nothing after it returns, and there is no state beside the lists:
 * several threads may call at the same time, each with its own lists. Lists that are only read
 * (const) may be shared.
 */
#ifndef HOPMAP_H
#define HOPMAP_H

#include <stddef.h>
#include <stdint.h>

/* The version of this interface. It rises by one whenever the arguments of a function, a list's
 * need, a limit, what a call leaves or what a number means changes; a new function, number or macro
 * beside the old ones leaves it. CHANGELOG.md says what changed in each. So a caller that was written
 * for an older header can be told apart when it is compiled:
 *
 *     #if HOPMAP_VERSION != 2
 *     #error "written for version 2 of hopmap.h"
 *     #endif
 *
 * The archive has no version that could be tested: take header and archive from the same tree.
 */
#define HOPMAP_VERSION 2

/* The numbers. */
#define HOPMAP_SUCCESS 0       /* success */
#define HOPMAP_BAD_LENGTH 1    /* the file is under 4 bytes, or its length does not fit its n and m */
#define HOPMAP_BAD_SIZE 2      /* n or m is outside its size */
#define HOPMAP_BAD_TARGET 3    /* a target is n or more */
#define HOPMAP_BAD_INDEX 4     /* a head or next index is above m */
#define HOPMAP_REPEATED 5      /* a record is reached a second time */
#define HOPMAP_UNREACHED 6     /* a record is never reached */
#define HOPMAP_BAD_SOURCE 7    /* the source is n or more */
#define HOPMAP_BAD_WORKERS 8   /* the number of workers is outside 1 to 8 */
#define HOPMAP_BAD_SCHEDULE 9  /* the sheet is too long, or a byte of it is no event of these workers */
#define HOPMAP_BAD_RESULT 10   /* the result is wrong */
#define HOPMAP_BAD_ROWS 11     /* the rows are malformed */
#define HOPMAP_SHORT_LIST 20   /* a lent list is shorter than its need */
#define HOPMAP_UNFINISHED 21   /* the sheet is spent and the search isn't finished */

/* A distance or parent that is unset. */
#define HOPMAP_UNSET 65535

/* The limits: the most devices, links, workers and event bytes. */
#define HOPMAP_MAX_VERTICES 4096
#define HOPMAP_MAX_EDGES 32768
#define HOPMAP_MAX_WORKERS 8
#define HOPMAP_MAX_EVENTS 5000000

/* Sizes, for n, m and P within the limits. Each is a size_t, and a constant where its arguments
 * are, so that it can be the length of an array; with the limits as arguments it is the most that
 * any call needs. An argument may be evaluated more than once.
 */

/* The bytes of a hearing file. */
#define HOPMAP_FILE_BYTES(n, m) (2 * (2 + (size_t)(n) + 2 * (size_t)(m)))

/* The places of offsets. */
#define HOPMAP_OFFSET_PLACES(n) ((size_t)(n) + 1)

/* The places of each of the search's node lists: left, right and values. */
#define HOPMAP_NODE_PLACES(P, n) ((size_t)(P) * (size_t)(n) + 1)

/* The pages, one for every 50 devices begun, and their bytes: 21 to a line, with a line for each
 * device and one for each page.
 */
#define HOPMAP_PAGES(n) (((size_t)(n) + 49) / 50)
#define HOPMAP_PAGE_BYTES(n) (21 * ((size_t)(n) + HOPMAP_PAGES(n)))

/* No search has more effective events than this, and a schedule with at least as many full rounds
 * always finishes. A full round has P + 1 bytes: 8 * w for the workers w from 0 to P - 1, which is
 * work, then 192, which is close. The bytes of so many rounds are at most HOPMAP_MAX_EVENTS,
 * whatever n, m and P are.
 */
#define HOPMAP_EVENT_BOUND(P, n, m) ((size_t)(P) * (6 * (size_t)(n) + (size_t)(m)) + (size_t)(n))

#ifdef __cplusplus
extern "C" {
#endif

/* Reads a hearing file into rows: the links of device v lead to targets[offsets[v]] up to
 * targets[offsets[v + 1] - 1].
 *   file     read: the file's bytes
 *   offsets  written: n + 1 places
 *   targets  written: m places
 *   marks    working room: m places, left 0
 *   answer   written, whatever the number: the number, n, m; with another number than 0 zeros
 *            for n and m
 * Returns answer[0]; the order is 1 (under 4 bytes), 2, 1 (length), 4, 3, 20, 5, 6.
 */
size_t hopmap_read(const uint8_t *file, size_t file_len,
                   uint16_t *offsets, size_t offsets_len,
                   uint16_t *targets, size_t targets_len,
                   uint16_t *marks, size_t marks_len,
                   uint32_t answer[3]);

/* Writes rows as a hearing file, which the reader reads back as the same rows.
 *   offsets  read: n + 1 places, no more, from 0 up to m; so n is offsets_len - 1
 *   targets  read: m places, no more, each below n; so m is targets_len
 *   file     written: HOPMAP_FILE_BYTES(n, m) places
 * Returns the number; the order is 11, 20.
 */
size_t hopmap_write(const uint16_t *offsets, size_t offsets_len,
                    const uint16_t *targets, size_t targets_len,
                    uint8_t *file, size_t file_len);

/* Searches from a source, with P workers in the order that the schedule says.
 *   file            read: the hearing file's bytes
 *   source          a device, below n
 *   workers         P
 *   schedule        read: the event bytes
 *   offsets         written: n + 1 places, as the reader's
 *   targets, marks  written: m places each, as the reader's
 *   distances       written: n places, the fewest links from the source to each device, or unset
 *                   where no path leads there
 *   parents         written: n places, the device before it on a shortest path, or unset; the
 *                   source's parent is the source
 *   census          written, with 0 and 21 alike: n places; place h, for h below n, is how many
 *                   devices have the written distance h, and one that is unset counts nowhere.
 *                   With any other number the list is left as it is. Long enough for every file:
 *                       uint16_t census[HOPMAP_MAX_VERTICES] = {0};
 *   left, right,    working room: HOPMAP_NODE_PLACES(P, n) places each, left 0
 *   values
 *   answer          written, whatever the number: the number, events used, effective events and the
 *                   last layer d; with another number than 0 and 21 zeros for these three
 * With 21 the schedule is spent and the search is not finished: the lists are as with 0, but only
 * some distances and parents are written yet, and the census counts those distances.
 * Returns answer[0]; the order is 1 (under 4 bytes), 2, 1 (length), 4, 3, 7, 8, 9, 20, 5, 6, 21.
 */
size_t hopmap_search(const uint8_t *file, size_t file_len,
                     size_t source,
                     size_t workers,
                     const uint8_t *schedule, size_t schedule_len,
                     uint16_t *offsets, size_t offsets_len,
                     uint16_t *targets, size_t targets_len,
                     uint16_t *marks, size_t marks_len,
                     uint16_t *distances, size_t distances_len,
                     uint16_t *parents, size_t parents_len,
                     uint16_t *census, size_t census_len,
                     uint16_t *left, size_t left_len,
                     uint16_t *right, size_t right_len,
                     uint16_t *values, size_t values_len,
                     uint32_t answer[4]);

/* Checks a finished result. 0 exactly where no other number applies: file and source are in order,
 * every list is long enough, and these distances and parents are right for this file and this
 * source. 10 exactly where no number before it applies and they are wrong.
 *   file                read: the hearing file's bytes
 *   source              a device, below n
 *   distances, parents  read: n places each, as the search writes them
 *   offsets             written: n + 1 places, as the reader's
 *   targets, marks      written: m places each, as the reader's
 * Returns the number; the order is 1 (under 4 bytes), 2, 1 (length), 4, 3, 7, 20, 5, 6, 10.
 */
size_t hopmap_check(const uint8_t *file, size_t file_len,
                    size_t source,
                    const uint16_t *distances, size_t distances_len,
                    const uint16_t *parents, size_t parents_len,
                    uint16_t *offsets, size_t offsets_len,
                    uint16_t *targets, size_t targets_len,
                    uint16_t *marks, size_t marks_len);

/* Checks a finished result and, where it is right, lays it out on pages for paper.
 *   file .. marks  as the checker's
 *   bytes          written, with 0 alone: HOPMAP_PAGE_BYTES(n) places
 * Returns the number; the order is the checker's, then 20 where bytes alone is too short.
 */
size_t hopmap_page(const uint8_t *file, size_t file_len,
                   size_t source,
                   const uint16_t *distances, size_t distances_len,
                   const uint16_t *parents, size_t parents_len,
                   uint16_t *offsets, size_t offsets_len,
                   uint16_t *targets, size_t targets_len,
                   uint16_t *marks, size_t marks_len,
                   uint8_t *bytes, size_t bytes_len);

#ifdef __cplusplus
}
#endif

#endif
