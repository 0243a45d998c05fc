/* Follows a table of cases by the clients of cvec.h: client FILE. As driver.c, it gives the table back where all is answered right. The
 * commands are told in clients.txt. */
#include <client.c> /* a table looks at pipes and processes that no caller sees */

#include <inttypes.h>

enum { LONGEST = 1 << 22, ROOM = (1 << 21) + 4096, LONGEST_WAIT = 120, FREE_DESCRIPTOR = 500 };

static const uint64_t untouched = 0xA5A5A5A5A5A5A5A5;

static cvec_server *server;
static cvec_client *clients[SEAT_LIMIT];
static char type[16];
static cvec_type number_of_type;
static union {
    uint64_t words[ROOM / 8]; /* so that any record may stand there */
    unsigned char bytes[ROOM];
} memory;
static unsigned char *const records = memory.bytes;

static char *next_word(void) { return strtok(NULL, " "); }

static uint64_t number(void) { return strtoull(next_word(), NULL, 10); }

static cvec_client **client(void) { return &clients[number()]; }

/* ---- records, as C has them */

static size_t put_number(size_t at, uint64_t value, size_t len) {
    for (size_t i = 0; i < len; i++) records[at + i] = (unsigned char)(value >> (8 * i));
    return at + len;
}

static uint64_t number_at(const unsigned char *bytes, size_t len) {
    uint64_t value = 0;
    for (size_t i = 0; i < len; i++) value |= (uint64_t)bytes[i] << (8 * i);
    return value;
}

/* Of a type of bytes how many these are, else 0. */
static size_t bytes_of_type(void) { return strncmp(type, "bytes", 5) ? 0 : strtoul(type + 5, NULL, 10); }

/* Of a type of numbers, as `u16`, the bytes of one; of another that of its key. */
static size_t bytes_of_number(void) {
    unsigned long bits = strtoul(type + 1, NULL, 10);
    return bits > 0 ? bits / 8 : 8;
}

/* Numbers with a fraction stand in a table by their bits. */
static int is_float(void) { return !strcmp(type, "f32") || !strcmp(type, "f64"); }

/* The bytes of a word in hexadecimal, all of them: it is whole bytes. */
static size_t put_hex(size_t at, const char *word) {
    for (; *word != '\0'; word += 2) {
        char two[] = {word[0], word[1], '\0'};
        records[at++] = (unsigned char)strtoul(two, NULL, 16);
    }
    return at;
}

static size_t tell_hex(const unsigned char *at, size_t len) {
    putchar(' ');
    for (size_t i = 0; i < len; i++) printf("%02x", at[i]);
    return len;
}

/* The records of the words that are left: how many. */
static uint32_t take_records(void) {
    uint32_t count = 0;
    size_t at = 0;
    for (char *word; (word = next_word()) != NULL; count++) {
        if (bytes_of_type() > 0) {
            at = put_hex(at, word);
            continue;
        }
        char *colon = strchr(word, ':');
        uint64_t first = word[0] == '-' ? (uint64_t)strtoll(word, NULL, 10) : strtoull(word, NULL, is_float() ? 16 : 10);
        at = put_number(at, first, bytes_of_number());
        if (colon) at = put_number(at, (uint64_t)strtoll(colon + 1, NULL, 10), 8);
    }
    return count;
}

static size_t tell_record(const unsigned char *at) {
    if (bytes_of_type() > 0) return tell_hex(at, bytes_of_type());
    size_t len = bytes_of_number();
    uint64_t first = number_at(at, len);
    if (!strcmp(type, "i32")) return printf(" %" PRId32, (int32_t)first), len;
    if (!strcmp(type, "i64")) return printf(" %" PRId64, (int64_t)first), len;
    if (is_float()) return printf(" %0*" PRIx64, (int)(2 * len), first), len;
    if (!strcmp(type, "pair")) return printf(" %" PRIu64 ":%" PRId64, first, (int64_t)number_at(at + 8, 8)), 16;
    if (!strcmp(type, "flagged")) return printf(" %" PRIu64 ":%u", first, at[8]), 16;
    return printf(" %" PRIu64, first), len;
}

/* ---- requests */

/* Whether the call was refused, which is told: by the number that the server has for it. Then it has written no number. What has ended is
 * no client any more. */
static int is_refused(const cvec_client *it, cvec_status fault, uint64_t one, uint64_t other) {
    if (fault == CVEC_DONE) return 0;
    if (one != untouched || other != untouched) puts("a number was written");
    if (it == NULL) puts(fault == CVEC_NOT_SO ? "gone" : "a client that is none");
    else if (fault == CVEC_GONE && errno == EPIPE) puts("gone");
    else if (fault == CVEC_GONE) printf("gone, and errno is %d\n", errno);
    else if (fault == CVEC_BUSY) puts("answers are left");
    else if (fault == CVEC_NOT_SO) puts(number_of_type == CVEC_TYPE_COUNT ? "no type" : "no answer is left");
    else if (fault > CVEC_GONE) printf("refused %d\n", fault - CVEC_GONE);
    else printf("status %d\n", fault);
    return 1;
}

/* The growths of a client are told as its own, in their turn. */
static void tell_growth(size_t k, const cvec_receipt *receipt, uint64_t len) {
    static uint64_t serials[SEAT_LIMIT];
    if (receipt->number == 0) memset(serials, 0, sizeof serials);
    if (receipt->seat != k || receipt->len != len) puts("it is another growth");
    if (receipt->serial > 0 && receipt->serial != serials[k]) puts("its turn was another");
    serials[k] = receipt->serial + 1;
    printf("growth %" PRIu64 " at %" PRIu64 "\n", receipt->number, receipt->start);
}

static cvec_receipt no_receipt(void) {
    return (cvec_receipt){untouched, untouched, untouched, untouched, (uint16_t)untouched};
}

static void grow(int by_halves) {
    cvec_client **it = client();
    uint32_t count = take_records();
    cvec_receipt receipt = no_receipt();
    cvec_status fault = by_halves ? cvec_client_send(*it, number_of_type, records, count)
                                  : cvec_client_grow(*it, number_of_type, records, count, &receipt);
    if (is_refused(*it, fault, receipt.number, receipt.start)) return;
    if (by_halves) puts("sent");
    else tell_growth((size_t)(it - clients), &receipt, count);
}

static void take_growth(void) {
    cvec_client **it = client();
    char *len = next_word();
    cvec_receipt receipt = no_receipt();
    if (is_refused(*it, cvec_client_take(*it, &receipt), receipt.number, receipt.len)) return;
    tell_growth((size_t)(it - clients), &receipt, len == NULL ? receipt.len : strtoull(len, NULL, 10));
}

static void await(void) {
    cvec_client *it = *client();
    uint64_t settled = untouched;
    if (!is_refused(it, cvec_client_settle(it, &settled), settled, untouched)) printf("settled %" PRIu64 "\n", settled);
}

static void look(void) {
    cvec_client *it = *client();
    uint64_t size = untouched, settled = untouched;
    if (!is_refused(it, cvec_client_look(it, &size, &settled), size, settled))
        printf("size %" PRIu64 " settled %" PRIu64 "\n", size, settled);
}

static void read_records(void) {
    cvec_client *it = *client();
    uint64_t start = number(), count = number();
    size_t copied = untouched, at = 0;
    memset(records, (int)untouched, ROOM);
    if (is_refused(it, cvec_client_read(it, number_of_type, start, records, count, &copied), copied, untouched)) return;
    printf("%zu:", copied);
    for (size_t k = 0; k < copied; k++) at += tell_record(records + at);
    putchar('\n');
    for (; at < ROOM; at++)
        if (records[at] != (unsigned char)untouched) {
            puts("it has written behind the records");
            return;
        }
}

/* ---- servers */

/* The number of the type of that name. */
static cvec_type type_of(const char *name) {
    size_t count, k = 0;
    const cvec_type_of *types = cvec_types(&count);
    while (k < count && strcmp(types[k].name, name) != 0) k++;
    return (cvec_type)k;
}

/* The server has no client of another number, and gives each once. */
static void take_clients(uint16_t count) {
    cvec_client *none = clients[0];
    for (uint16_t k = 0; k < count; k++)
        if (cvec_server_client(server, k, &clients[k]) != CVEC_DONE || clients[k] == NULL) puts("a client is missing");
    for (uint16_t k = 0; k < count + 2; k++)
        if (cvec_server_client(server, k, &none) != CVEC_NOT_SO || none != NULL) puts("a client too many");
}

static void start_server(int takes_clients) {
    char *program = next_word();
    snprintf(type, sizeof type, "%s", next_word());
    char *file = next_word();
    uint16_t count = (uint16_t)number();
    number_of_type = type_of(type);
    memset(&server, (int)untouched, sizeof server);
    memset(clients, 0, sizeof clients);
    errno = 0;
    cvec_status fault = cvec_server_start(&server, program, number_of_type, file, count);
    if ((fault == CVEC_DONE) != (server != NULL)) puts("a server that is none");
    if (fault == CVEC_DISK_OPEN || fault == CVEC_GONE) printf("no server: %s\n", strerror(errno));
    else if (fault != CVEC_DONE) printf("no server, status %d\n", fault);
    else puts("done");
    if (fault == CVEC_DONE && takes_clients) take_clients(count);
}

/* Blocks this signal in the client from now on. */
static void block(void) {
    sigset_t blocked;
    sigemptyset(&blocked);
    sigaddset(&blocked, (int)number());
    sigprocmask(SIG_BLOCK, &blocked, NULL);
}

/* The server has ended when this returns, and is still to be waited for. */
static void kill_server(void) {
    siginfo_t ended;
    kill(server->pid, SIGKILL);
    waitid(P_PID, (id_t)server->pid, &ended, WEXITED | WNOWAIT);
}

/* Closes the pipes of a client, behind a request whose answer nobody reads. */
static void leave(void) {
    cvec_client **it = client();
    static const unsigned char look_head[16] = {3};
    close((*it)->answers);
    (*it)->answers = -1;
    for (size_t sent = 0; sent < sizeof look_head;) {
        ssize_t n = write((*it)->requests, look_head + sent, sizeof look_head - sent);
        if (n > 0) sent += (size_t)n;
    }
    cvec_client_close(it);
}

/* What has ended may be ended again: its numbers are those of other descriptors then, and are left alone. */
static void end(void (*close_it)(cvec_client **)) {
    cvec_client **it = client(), *none = *it;
    int ends[] = {none == NULL ? -1 : none->requests, none == NULL ? -1 : none->answers}, others[2];
    cvec_status fault = CVEC_DONE;
    if (close_it == NULL) fault = cvec_client_end(it);
    else close_it(it);
    if (*it != NULL) puts("it is a client still");
    for (int k = 0; k < 2; k++)
        if (ends[k] >= 0 && fcntl(ends[k], F_GETFD) >= 0) puts("it has left a pipe open");
    for (int k = 0; k < 2; k++) others[k] = open("/dev/null", O_RDONLY | O_CLOEXEC);
    if (cvec_client_end(it) != CVEC_DONE) puts("it has no second end");
    cvec_client_close(it);
    for (int k = 0; k < 2; k++)
        if (close(others[k]) != 0) puts("it has closed what isn't its own");
    errno = EPIPE;
    if (!is_refused(none, fault, untouched, untouched)) puts("done");
}

static void wait_for_server(void) {
    int status = -9, ended_by = -9;
    const cvec_status fault = cvec_server_wait(&server, &status, &ended_by);
    if (server != NULL) puts("it is a server still");
    if (fault == CVEC_GONE) printf("not waited for: %s\n", strerror(errno));
    else if (fault != CVEC_DONE) printf("not waited for, status %d\n", fault);
    else if (ended_by == 0) printf("ended %d\n", status);
    else if (ended_by == SIGKILL) puts("killed");
    else printf("ended by signal %d\n", ended_by);
    if (fault == CVEC_DONE ? ended_by != 0 && status != -1 : status != -9 || ended_by != -9) puts("the status is another");
}

/* Follows a command in a forked process. */
static void forked(void (*follow)(char *)) {
    char *line = strtok(NULL, "");
    fflush(stdout);
    const pid_t pid = fork();
    if (pid == 0) {
        follow(line);
        fflush(stdout);
        _exit(0);
    }
    waitpid(pid, NULL, 0);
}

/* The next calls of this client name this type. */
static void name_type(void) {
    snprintf(type, sizeof type, "%s", next_word());
    number_of_type = type_of(type);
}

static void follow(char *line) {
    char *word = strtok(line, " ");
    errno = 0;
    if (!strcmp(word, "serve")) start_server(1);
    else if (!strcmp(word, "untaken")) start_server(0);
    else if (!strcmp(word, "claim")) take_clients((uint16_t)number());
    else if (!strcmp(word, "grow")) grow(0);
    else if (!strcmp(word, "send")) grow(1);
    else if (!strcmp(word, "take")) take_growth();
    else if (!strcmp(word, "await")) await();
    else if (!strcmp(word, "look")) look();
    else if (!strcmp(word, "read")) read_records();
    else if (!strcmp(word, "leave")) leave();
    else if (!strcmp(word, "end")) end(NULL);
    else if (!strcmp(word, "close")) end(cvec_client_close);
    else if (!strcmp(word, "forked")) forked(follow);
    else if (!strcmp(word, "type")) name_type();
    else if (!strcmp(word, "ignore")) signal(SIGCHLD, SIG_IGN);
    else if (!strcmp(word, "kill")) kill_server();
    else if (!strcmp(word, "wait")) wait_for_server();
    else if (!strcmp(word, "block")) block();
    else if (!strcmp(word, "sh")) {
        fflush(stdout);
        if (system(strtok(NULL, "")) == -1) exit(2);
    } else exit(2);
}

int main(int argc, char **argv) {
    static char line[LONGEST];
    int low = argc == 2 ? open(argv[1], O_RDONLY | O_CLOEXEC) : -1;
    FILE *table = fdopen(fcntl(low, F_DUPFD_CLOEXEC, FREE_DESCRIPTOR), "r");
    if (low < 0 || table == NULL) return 2;
    close(low); /* so that the first pipe may be where the server's is to be */
    signal(SIGPIPE, SIG_IGN);
    while (fgets(line, sizeof line, table) != NULL) {
        if (line[0] == '#' || line[0] == '\n' || line[0] == '>') fputs(line, stdout);
        if (line[0] != '>') continue;
        line[strcspn(line, "\n")] = '\0';
        fflush(stdout);
        alarm(LONGEST_WAIT); /* a wait for what never comes is a wrong answer too */
        follow(line + 2);
    }
    return 0;
}
