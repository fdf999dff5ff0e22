"""Case A through the C interface (include/hopmap.h): prints four_devices/result.txt, and on standard
error the census, how many devices stand at each distance.

    (cd crates/capi && rt lib) && mkdir -p target
    gcc -shared -o target/libhopmap.so -Wl,--whole-archive crates/capi/out/libcapi.a -Wl,--no-whole-archive
    python3 examples/search.py target/libhopmap.so
"""
import sys
from ctypes import CDLL, POINTER, c_char_p, c_size_t, c_uint16, c_uint32

# Numbers and the unset label, as the header names them; devices, links and workers of case A.
HOPMAP_SUCCESS, HOPMAP_UNFINISHED, HOPMAP_UNSET = 0, 21, 65535
N, M, P, SOURCE = 4, 4, 2, 0

# Without restype ctypes would take the number for an int, and without argtypes a length for one.
BYTES, WORDS = [c_char_p, c_size_t], [POINTER(c_uint16), c_size_t]
hopmap_search = CDLL(sys.argv[1]).hopmap_search
hopmap_search.restype = c_size_t
hopmap_search.argtypes = BYTES + [c_size_t, c_size_t] + BYTES + 9 * WORDS + [POINTER(c_uint32)]

file = bytes([4, 0, 4, 0, 1, 0, 3, 0, 4, 0, 0, 0, 1, 0, 2, 0, 2, 0, 0, 0, 3, 0, 0, 0, 3, 0, 0, 0])
schedule = bytes([0] * 9 + [192, 72, 0, 8, 0, 8, 0, 8, 8, 0, 0, 8, 192, 0, 0, 192])
# offsets, targets, marks, distances, parents, census, left, right, values; ctypes fills them with zeros
needs = N + 1, M, M, N, N, N, P * N + 1, P * N + 1, P * N + 1
lists = [(c_uint16 * places)() for places in needs]
distances, parents, census = lists[3:6]
answer = (c_uint32 * 4)()

lent = [part for words in lists for part in (words, len(words))]
number = hopmap_search(file, len(file), SOURCE, P, schedule, len(schedule), *lent, answer)
print(*answer)
if number != HOPMAP_SUCCESS:
    print(f"hopmap_search: {number}", file=sys.stderr)
if number in (HOPMAP_SUCCESS, HOPMAP_UNFINISHED):
    print("census:", *census, file=sys.stderr)
    for v in range(N):
        print(v, *("-" if label == HOPMAP_UNSET else label for label in (distances[v], parents[v])))
sys.exit(number)
