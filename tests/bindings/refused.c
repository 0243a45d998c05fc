/* Linked by --wrap=cvec_vector_resize: where REFUSED is set, the first call is refused for want of memory once it has the whole
 * vector, and before it has changed anything. */
#include <stdint.h>
#include <stdlib.h>

uint32_t __real_cvec_vector_resize(void *vector, uint32_t type, uint64_t size, const void *record);
uint32_t cvec_vector_fold(void *vector);

uint32_t __wrap_cvec_vector_resize(void *vector, uint32_t type, uint64_t size, const void *record) {
    static int calls;
    if (getenv("REFUSED") == NULL || calls++ > 0) return __real_cvec_vector_resize(vector, type, size, record);
    const uint32_t answer = cvec_vector_fold(vector); /* there is nothing to fold */
    return answer == 0 ? 6 : answer;
}
