/* For tests of a phase that is full: so many growths of one record, counted from the first one, by this function of the library. */
#include <stddef.h>
#include <stdint.h>

typedef uint32_t grows(void *seat, uint32_t type, const uint64_t *records, size_t count, void *receipt);

enum { U64 = 3 }; /* CVEC_U64 */

uint32_t grow_often(grows *grow, void *seat, uint64_t first, uint64_t count) {
    uint32_t status = 0;
    for (uint64_t record = first; status == 0 && record < first + count; record++) status = grow(seat, U64, &record, 1, NULL);
    return status;
}
