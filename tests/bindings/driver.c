/* Follows a table of cases by cvec.h: driver FILE. It writes each line that begins no answer again, and behind each line
 * `> COMMAND` what the command answers, so a right answer gives the table back. The commands are told in cases.txt. */
#define _DEFAULT_SOURCE 1
#include "file.c" /* what `suppose` sets, no caller can */

#include <errno.h>
#include <inttypes.h>
#include <stdio.h>
#include <stdlib.h>
#include <string.h>

enum { LONGEST = 1 << 20, MOST = (1 << 17) + 64, HANDLES = 26, HOMES = 4096 };

/* What stands behind the records that a call may write. */
static const unsigned char guard = 0xA5;

union records {
    uint8_t u8[MOST];
    uint16_t u16[MOST];
    uint32_t u32[MOST];
    uint64_t u64[MOST];
    int32_t i32[MOST];
    int64_t i64[MOST];
    float f32[MOST];
    double f64[MOST];
    cvec_pair pair[MOST];
    cvec_flagged flagged[MOST];
    cvec_bytes16 bytes16[MOST];
    cvec_bytes24 bytes24[MOST];
    cvec_bytes32 bytes32[MOST];
    cvec_bytes64 bytes64[MOST];
    unsigned char bytes[64 * MOST];
};

/* By the numbers of their types. */
#define NAME_OF(NAME, name, RECORD, WIDTH) [CVEC_##NAME] = #name,
#define WIDTH_OF(NAME, name, RECORD, WIDTH) [CVEC_##NAME] = WIDTH,
#define SIZE_OF(NAME, name, RECORD, WIDTH) [CVEC_##NAME] = sizeof(RECORD),
static const char *const names[] = {CVEC_TYPES(NAME_OF)};
static const size_t in_file[] = {CVEC_TYPES(WIDTH_OF)};
static const size_t in_c[] = {CVEC_TYPES(SIZE_OF)};

/* What a letter of the table stands for. */
struct handle {
    cvec_file *file;
    cvec_type type;
    int is_to_read;
};

static struct handle handles[HANDLES];
static union records records;
static cvec_home homes[HOMES];

/* ---- words */

static char *next_word(void) { return strtok(NULL, " "); }

static uint64_t number(void) {
    char *word = next_word();
    return word ? strtoull(word, NULL, 10) : 0;
}

/* A path, in which \xHH stands for a byte. */
static char *path_word(void) {
    char *word = next_word(), *to = word;
    for (char *at = word; *at != '\0';) {
        int is_byte = at[0] == '\\' && at[1] == 'x';
        char two[] = {at[is_byte ? 2 : 0], at[is_byte ? 3 : 0], '\0'};
        *to++ = is_byte ? (char)strtoul(two, NULL, 16) : *at;
        at += is_byte ? 4 : 1;
    }
    *to = '\0';
    return word;
}

static struct handle *handle(void) { return &handles[next_word()[0] - 'a']; }

static cvec_type type_of(void) {
    char *word = next_word();
    for (size_t k = 0; k < sizeof names / sizeof *names; k++)
        if (!strcmp(word, names[k])) return (cvec_type)k;
    exit(2);
}

/* ---- records */

static unsigned char *bytes_of_record(cvec_type type, size_t k) {
    switch (type) {
    case CVEC_BYTES16: return records.bytes16[k].bytes;
    case CVEC_BYTES24: return records.bytes24[k].bytes;
    case CVEC_BYTES32: return records.bytes32[k].bytes;
    default: return records.bytes64[k].bytes;
    }
}

static void take_bytes(unsigned char *bytes, size_t len, const char *hex) {
    if (strlen(hex) != 2 * len) exit(2);
    for (size_t at = 0; at < len; at++) {
        char two[] = {hex[2 * at], hex[2 * at + 1], '\0'};
        bytes[at] = (unsigned char)strtoul(two, NULL, 16);
    }
}

static void tell_hex(const unsigned char *bytes, size_t len) {
    for (size_t at = 0; at < len; at++) printf("%02x", bytes[at]);
}

/* A float and a double stand in a table by their bits. */
static float float_of(uint32_t bits) {
    float number;
    memcpy(&number, &bits, sizeof number);
    return number;
}

static double double_of(uint64_t bits) {
    double number;
    memcpy(&number, &bits, sizeof number);
    return number;
}

static void take_record(cvec_type type, size_t k, char *word) {
    char *colon = strchr(word, ':');
    switch (type) {
    case CVEC_U8: records.u8[k] = (uint8_t)strtoull(word, NULL, 10); break;
    case CVEC_U16: records.u16[k] = (uint16_t)strtoull(word, NULL, 10); break;
    case CVEC_U32: records.u32[k] = (uint32_t)strtoull(word, NULL, 10); break;
    case CVEC_U64: records.u64[k] = strtoull(word, NULL, 10); break;
    case CVEC_I32: records.i32[k] = (int32_t)strtoll(word, NULL, 10); break;
    case CVEC_I64: records.i64[k] = strtoll(word, NULL, 10); break;
    case CVEC_F32: records.f32[k] = float_of((uint32_t)strtoull(word, NULL, 16)); break;
    case CVEC_F64: records.f64[k] = double_of(strtoull(word, NULL, 16)); break;
    case CVEC_PAIR: records.pair[k] = (cvec_pair){strtoull(word, NULL, 10), strtoll(colon + 1, NULL, 10)}; break;
    case CVEC_FLAGGED: records.flagged[k] = (cvec_flagged){strtoull(word, NULL, 10), colon[1] == '1'}; break;
    default: take_bytes(bytes_of_record(type, k), in_file[type], word); break;
    }
}

static void tell_record(cvec_type type, size_t k) {
    switch (type) {
    case CVEC_U8: printf(" %" PRIu8, records.u8[k]); break;
    case CVEC_U16: printf(" %" PRIu16, records.u16[k]); break;
    case CVEC_U32: printf(" %" PRIu32, records.u32[k]); break;
    case CVEC_U64: printf(" %" PRIu64, records.u64[k]); break;
    case CVEC_I32: printf(" %" PRId32, records.i32[k]); break;
    case CVEC_I64: printf(" %" PRId64, records.i64[k]); break;
    case CVEC_F32: printf(" %08" PRIx32, records.u32[k]); break;
    case CVEC_F64: printf(" %016" PRIx64, records.u64[k]); break;
    case CVEC_PAIR: printf(" %" PRIu64 ":%" PRId64, records.pair[k].key, records.pair[k].value); break;
    case CVEC_FLAGGED: printf(" %" PRIu64 ":%d", records.flagged[k].key, records.flagged[k].flag); break;
    default: putchar(' '), tell_hex(bytes_of_record(type, k), in_file[type]); break;
    }
}

/* The records of a file's bytes, as C has them. */
static void unpack(cvec_type type, size_t k, const unsigned char *bytes) {
    memcpy(records.bytes + k * in_c[type], bytes, in_file[type]);
}

/* ---- answers */

static void tell(uint32_t status, const cvec_fault *fault) {
    int why = status >= CVEC_DISK_OPEN && status <= CVEC_DISK_SYNC ? errno : 0;
    if (status == CVEC_DONE) {
        puts("done");
        return;
    }
    printf("refused %" PRIu32 " %s", status, cvec_status_text(status));
    if (status == CVEC_DAMAGED) printf(" at %" PRIu64 ": %s", fault->at, cvec_cause_text(fault->cause));
    if (status == CVEC_NO_RECORD) printf(" at position %" PRIu64, fault->at);
    if (why != 0) printf(": %s", strerror(why));
    printf("; at %" PRIu64 " cause %" PRIu32 " found %" PRIu32 " errno %d\n", fault->at, fault->cause, fault->found, why);
}

static void tell_stat(const cvec_stat *stat) {
    printf("size %" PRIu64 " frames %" PRIu64 " changes %" PRIu64 " folded %" PRIu64 " gate %" PRIu64 " width %u version %u\n",
           stat->size, stat->frames, stat->changes, stat->folded, stat->gate, stat->width, stat->version);
}

/* ---- files */

static void append(void) {
    struct handle *at = handle();
    size_t count = 0;
    for (char *word; (word = next_word()) != NULL; count++) take_record(at->type, count, word);
    cvec_fault none = {0, 0, 0};
    tell(cvec_file_append(at->file, at->type, count > 0 ? &records : NULL, count), &none);
}

static void read_copy(void) {
    struct handle *at = handle();
    uint64_t from = number(), count = 0;
    char *most = next_word();
    cvec_stat stat = {0, 0, 0, 0, 0, 0, 0};
    cvec_file_stat(at->file, &stat); /* of no file it is nothing */
    size_t left = stat.size > from ? stat.size - from : 0;
    size_t room = most ? strtoul(most, NULL, 10) : at->is_to_read ? MOST : left;
    cvec_fault fault;
    memset(&fault, guard, sizeof fault);
    memset(records.bytes, guard, sizeof records.bytes);
    uint32_t status = cvec_file_read(at->file, at->type, from, room > 0 ? &records : NULL, room, &count, &fault);
    for (size_t k = count * in_c[at->type]; k < sizeof records.bytes; k++)
        if (records.bytes[k] != guard) {
            puts("it has written behind the records");
            return;
        }
    if (status != CVEC_DONE) {
        tell(status, &fault);
        return;
    }
    printf("%" PRIu64 ":", count);
    for (size_t k = 0; k < count; k++) tell_record(at->type, k);
    putchar('\n');
}

/* What it holds, as it is known. */
static void tell_known(void) {
    const cvec_fault none = {0, 0, 0};
    cvec_stat stat;
    const cvec_status status = cvec_file_stat(handle()->file, &stat);
    if (status == CVEC_DONE) tell_stat(&stat);
    else tell(status, &none);
}

/* All bytes of a file, in memory of their length alone, so that a tool sees a read past them. */
static unsigned char *bytes_of(const char *path, size_t *len) {
    FILE *file = fopen(path, "rb");
    if (file == NULL || fseek(file, 0, SEEK_END) != 0) exit(2);
    *len = (size_t)ftell(file);
    unsigned char *bytes = malloc(*len + 1);
    rewind(file);
    if (bytes == NULL || fread(bytes, 1, *len, file) != *len) exit(2);
    fclose(file);
    return bytes;
}

/* Frames and records by what stands in the file, with no copy made by the library. */
static void tell_image(int by_homes) {
    cvec_type type = type_of();
    size_t len = 0, told = 0;
    unsigned char *image = bytes_of(next_word(), &len);
    cvec_stat stat;
    cvec_fault fault = {0, 0, 0};
    cvec_frame frame;
    uint64_t count = 0;
    uint32_t status = cvec_image_homes(type, image, len, homes, HOMES, &count, &stat, &fault);
    if (status != CVEC_DONE) {
        tell(status, &fault);
    } else if (!by_homes) {
        tell_stat(&stat);
        for (uint64_t at = CVEC_FIRST_GATE; at < stat.gate; at = frame.next) {
            if (cvec_image_frame(image, len, at, stat.version, stat.width, &frame) != CVEC_DONE) exit(2);
            printf("at %" PRIu64 " kind %u payload %" PRIu32 " growths %" PRIu32 " records %" PRIu32 " first %" PRIu64 "\n", at,
                   frame.kind, frame.payload_len, frame.growths, frame.records, frame.first_record);
        }
    } else if (stat.changes > stat.folded) {
        puts("a change is live");
    } else {
        for (uint64_t k = 0; k < count; k++)
            for (uint64_t j = 0; j < homes[k].count; j++) unpack(type, told++, image + homes[k].place + j * in_file[type]);
        printf("%zu:", told);
        for (size_t k = 0; k < told; k++) tell_record(type, k);
        putchar('\n');
    }
    free(image);
}

/* Writes a file of these bytes. */
static void put(void) {
    FILE *file = fopen(next_word(), "wb");
    if (file == NULL) exit(2);
    for (char *hex = next_word(); hex != NULL; hex = next_word())
        for (; *hex != '\0'; hex += 2) {
            char two[] = {hex[0], hex[1], '\0'};
            fputc((int)strtoul(two, NULL, 16), file);
        }
    fclose(file);
}

static void tell_bytes(void) {
    size_t len = 0;
    unsigned char *bytes = bytes_of(next_word(), &len);
    tell_hex(bytes, len);
    putchar('\n');
    free(bytes);
}

/* Where it is refused there is none. */
static void tell_handle(const struct handle *at, cvec_status status, const cvec_fault *fault) {
    if ((status == CVEC_DONE) != (at->file != NULL)) puts("a handle that is none");
    tell(status, fault);
}

static void make_file(void) {
    struct handle *at = handle();
    cvec_fault none = {0, 0, 0};
    at->type = type_of();
    at->is_to_read = 0;
    memset(&at->file, guard, sizeof at->file);
    tell_handle(at, cvec_file_create(&at->file, path_word(), at->type, 1), &none);
}

static void open_file(cvec_status (*call)(cvec_file **, const char *, cvec_type, cvec_fault *)) {
    struct handle *at = handle();
    cvec_fault fault;
    at->type = type_of();
    at->is_to_read = call == cvec_file_open_to_read;
    memset(&at->file, guard, sizeof at->file);
    memset(&fault, guard, sizeof fault);
    tell_handle(at, call(&at->file, path_word(), at->type, &fault), &fault);
}

/* Opens a file so many times, and closes it. */
static void open_often(void) {
    uint64_t times = number();
    cvec_type type = type_of();
    char *path = next_word();
    cvec_fault fault = {0, 0, 0};
    uint32_t status = CVEC_DONE;
    for (uint64_t k = 0; k < times && status == CVEC_DONE; k++) {
        cvec_file *file;
        status = cvec_file_open(&file, path, type, &fault);
        cvec_file_close(&file);
    }
    tell(status, &fault);
}

/* What is closed may be closed again. */
static void close_file(void) {
    struct handle *at = handle();
    cvec_file_close(&at->file);
    puts(at->file == NULL ? "done" : "a handle that is closed");
    cvec_file_close(&at->file);
}

/* What a file has is set, for one that is too long to be read. */
static void suppose(void) {
    cvec_file *file = handle()->file;
    file->stat.size = number();
    file->stat.frames = number();
    file->stat.gate = number();
    file->stat.version = (uint8_t)number();
    puts("done");
}

static void follow(char *line) {
    char *word = strtok(line, " ");
    if (!strcmp(word, "create")) make_file();
    else if (!strcmp(word, "open")) open_file(cvec_file_open);
    else if (!strcmp(word, "open-to-read")) open_file(cvec_file_open_to_read);
    else if (!strcmp(word, "append")) append();
    else if (!strcmp(word, "read")) read_copy();
    else if (!strcmp(word, "stat")) tell_known();
    else if (!strcmp(word, "close")) close_file();
    else if (!strcmp(word, "frames")) tell_image(0);
    else if (!strcmp(word, "map")) tell_image(1);
    else if (!strcmp(word, "put")) put();
    else if (!strcmp(word, "bytes")) tell_bytes();
    else if (!strcmp(word, "suppose")) suppose();
    else if (!strcmp(word, "often")) open_often();
    else if (!strcmp(word, "sh")) {
        fflush(stdout);
        if (system(strtok(NULL, "")) == -1) exit(2);
    } else exit(2);
}

int main(int argc, char **argv) {
    static char line[LONGEST];
    FILE *table = argc == 2 ? fopen(argv[1], "re") : NULL;
    if (table == NULL) return 2;
    while (fgets(line, sizeof line, table) != NULL) {
        if (line[0] == '#' || line[0] == '\n' || line[0] == '>') fputs(line, stdout);
        if (line[0] != '>') continue;
        line[strcspn(line, "\n")] = '\0';
        follow(line + 2);
    }
    return 0;
}
