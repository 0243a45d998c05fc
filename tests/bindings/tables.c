/* Writes a table of cvec.h, as it is compiled: tables types, a line for each with its number, its name, and the bytes of a record in a
 * file and in memory; or tables statuses, and causes, with the number, the name and the sentence, also of a number that has no name. */
#include "cvec.h"

#include <inttypes.h>
#include <stdio.h>
#include <string.h>

static void tell_types(void) {
    size_t count = 0;
    const cvec_type_of *types = cvec_types(&count);
    for (size_t k = 0; k < count; k++) printf("%zu %s %u %u\n", k, types[k].name, types[k].width, types[k].size);
#define DIFFERS(NAME, WORD, RECORD, WIDTH) \
    if (strcmp(types[CVEC_##NAME].name, #WORD) != 0 || types[CVEC_##NAME].size != sizeof(RECORD)) puts(#NAME " is another type");
    CVEC_TYPES(DIFFERS)
}

static const char *name_of_status(uint32_t status) {
    switch (status) {
#define NAME_OF(NAME, NUMBER, SENTENCE) \
    case CVEC_##NAME: return #NAME;
        CVEC_STATUSES(NAME_OF)
    default: return "-";
    }
}

static const char *name_of_cause(uint32_t cause) {
    switch (cause) {
#define CAUSE_OF(NAME, NUMBER, SENTENCE) \
    case CVEC_CAUSE_##NAME: return #NAME;
        CVEC_CAUSES(CAUSE_OF)
    default: return "-";
    }
}

static void tell(const char *(*name_of)(uint32_t), const char *(*text_of)(uint32_t)) {
    const char *unknown = text_of(UINT32_MAX);
    for (uint32_t number = 0; number < 1000; number++) {
        const char *text = text_of(number), *name = name_of(number);
        if (strcmp(text, unknown) != 0 || strcmp(name, "-") != 0) printf("%" PRIu32 " %s %s\n", number, name, text);
    }
}

int main(int argc, char **argv) {
    if (argc != 2) return 2;
    if (strcmp(argv[1], "types") == 0) tell_types();
    else if (strcmp(argv[1], "causes") == 0) tell(name_of_cause, cvec_cause_text);
    else tell(name_of_status, cvec_status_text);
    return 0;
}
