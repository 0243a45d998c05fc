/* A test of servers and clients of cvec.h, with pipes in the place of a server: memory is refused request by request, and a process
 * or a pipe, and nothing is made, sent or lost then; handles of nothing are refused; and each growth has its own receipt. It writes what is wrong. */
#define _GNU_SOURCE 1
#include "cvec.h"

#include <errno.h>
#include <fcntl.h>
#include <signal.h>
#include <stdio.h>
#include <stdlib.h>
#include <string.h>
#include <sys/ioctl.h>
#include <sys/resource.h>
#include <sys/wait.h>
#include <unistd.h>

extern void *__libc_malloc(size_t), *__libc_calloc(size_t, size_t), *__libc_realloc(void *, size_t);

static unsigned seen, refused, wrong; /* requests for memory, and the number of the one that is refused: 0, none */

static int is_refused(void) {
    if (++seen != refused) return 0;
    errno = ENOMEM;
    return 1;
}

void *malloc(size_t len) { return is_refused() ? NULL : __libc_malloc(len); }
void *calloc(size_t count, size_t len) { return is_refused() ? NULL : __libc_calloc(count, len); }
void *realloc(void *at, size_t len) { return is_refused() ? NULL : __libc_realloc(at, len); }

extern pid_t __fork(void);
static int is_process_refused;

pid_t fork(void) {
    if (!is_process_refused) return __fork();
    errno = EAGAIN;
    return -1;
}

static void check(int holds, const char *what) {
    if (!holds) wrong++, puts(what);
}

static void refuse(unsigned number) {
    seen = 0;
    refused = number;
}

static int open_descriptors(void) {
    int count = 0;
    for (int fd = 0; fd < 256; fd++) count += fcntl(fd, F_GETFD) >= 0;
    return count;
}

static int bytes_in(int fd) {
    int count = -1;
    return ioctl(fd, FIONREAD, &count) == 0 ? count : -1;
}

/* The handle of a server, and of each of its clients. */
enum { CLIENTS = 3, HANDLES = 1 + CLIENTS };

static void try_start(void) {
    const int before = open_descriptors();
    cvec_server *server = NULL;
    for (unsigned number = 1; number <= HANDLES; number++) {
        refuse(number);
        server = (cvec_server *)&server;
        check(cvec_server_start(&server, "true", CVEC_U64, "none", CLIENTS) == CVEC_MEMORY && server == NULL, "a server without memory");
        check(open_descriptors() == before && waitpid(-1, NULL, WNOHANG) < 0 && errno == ECHILD, "a start that is refused leaves something");
    }
    refuse(0);
    int status = -1, ended_by = -1;
    check(cvec_server_start(&server, "true", CVEC_U64, "none", CLIENTS) == CVEC_DONE, "no server");
    check(seen == HANDLES, "a start takes other memory");
    check(cvec_server_wait(&server, &status, &ended_by) == CVEC_DONE && status == 0 && ended_by == 0, "it has ended otherwise");
    check(open_descriptors() == before, "its pipes are left");
}

/* There is no server, and no pipe is left, where the system refuses a process, or a pipe: the last of them, or one in the midst. */
static void try_system(void) {
    const int before = open_descriptors();
    struct rlimit most, few;
    cvec_server *server = (cvec_server *)&server;
    is_process_refused = 1;
    check(cvec_server_start(&server, "true", CVEC_U64, "none", CLIENTS) == CVEC_GONE && errno == EAGAIN && server == NULL, "a server of no process");
    is_process_refused = 0;
    int ends[4 * CLIENTS]; /* the numbers that pipes get */
    for (int k = 0; k < 4 * CLIENTS; k++) ends[k] = dup(STDIN_FILENO);
    for (int k = 0; k < 4 * CLIENTS; k++) close(ends[k]);
    if (getrlimit(RLIMIT_NOFILE, &most) != 0) exit(2);
    few = most;
    for (int k = 0; k < 4 * CLIENTS; k++) {
        server = (cvec_server *)&server;
        few.rlim_cur = (rlim_t)ends[k];
        setrlimit(RLIMIT_NOFILE, &few);
        check(cvec_server_start(&server, "true", CVEC_U64, "none", CLIENTS) == CVEC_DISK_OPEN && errno == EMFILE && server == NULL,
              "a server without pipes");
        setrlimit(RLIMIT_NOFILE, &most);
    }
    check(open_descriptors() == before && waitpid(-1, NULL, WNOHANG) < 0 && errno == ECHILD, "a start that is refused leaves something");
}

/* An answer of a growth, as a server has it. */
static void answer(int answers, uint64_t number, uint64_t start) {
    uint64_t head[3] = {0, number, start};
    check(write(answers, head, sizeof head) == sizeof head, "the test's pipe");
}

/* Growths of one record, of two, and so on: the room for the lengths of those that are sent is taken twice. */
static void try_sends(cvec_client *client, int requests, int answers) {
    static const uint64_t records[64];
    int sent = 0;
    uint64_t start = 0;
    cvec_receipt receipt;
    for (size_t len = 1; len <= 20; len++) {
        const int is_full = len == 1 || len == 17;
        refuse(1);
        const cvec_status status = cvec_client_send(client, CVEC_U64, records, len);
        check(status == (is_full ? CVEC_MEMORY : CVEC_DONE), "a send without memory");
        check(bytes_in(requests) == sent + (is_full ? 0 : 16 + 8 * (int)len), "a send that is refused has sent something");
        refuse(0);
        if (is_full) check(cvec_client_send(client, CVEC_U64, records, len) == CVEC_DONE, "no send behind one that was refused");
        sent += 16 + 8 * (int)len;
    }
    check(bytes_in(requests) == sent, "it has sent something else");
    for (uint64_t len = 1; len <= 20; len++) {
        answer(answers, 7 + len, start);
        check(cvec_client_take(client, &receipt) == CVEC_DONE, "no answer is taken");
        check(receipt.number == 7 + len && receipt.start == start && receipt.len == len && receipt.serial == len - 1 && receipt.seat == 0,
              "it is another growth");
        start += len;
    }
    check(cvec_client_take(client, NULL) == CVEC_NOT_SO, "an answer too many");
}

/* Growths whose lengths fill the room from its midst on: where it is taken twice, each keeps its own. */
static void try_turned(void) {
    static const uint64_t records[64];
    int requests[2], answers[2];
    cvec_client *client = NULL;
    cvec_receipt receipt;
    size_t sent = 0, taken = 0;
    if (pipe(requests) != 0 || pipe(answers) != 0 || cvec_client_of(&client, CVEC_U64, requests[1], answers[0]) != CVEC_DONE) exit(2);
    while (sent < 22) {
        check(cvec_client_send(client, CVEC_U64, records, ++sent) == CVEC_DONE, "no send");
        if (sent != 16) continue; /* the room is full */
        for (; taken < 5; taken++) answer(answers[1], taken, 0), check(cvec_client_take(client, NULL) == CVEC_DONE, "no answer");
    }
    for (; taken < sent; taken++) {
        answer(answers[1], taken, 0);
        check(cvec_client_take(client, &receipt) == CVEC_DONE && receipt.len == taken + 1, "the answer of a growth has the length of another");
    }
    cvec_client_close(&client);
    close(requests[0]);
    close(answers[1]);
}

static void try_client(void) {
    const int before = open_descriptors();
    int requests[2], answers[2];
    cvec_client *client = NULL;
    if (pipe(requests) != 0 || pipe(answers) != 0) exit(2);
    refuse(1);
    client = (cvec_client *)&client;
    check(cvec_client_of(&client, CVEC_U64, requests[1], answers[0]) == CVEC_MEMORY && client == NULL, "a client without memory");
    refuse(0);
    client = (cvec_client *)&client;
    check(cvec_client_of(&client, CVEC_TYPE_COUNT, requests[1], answers[0]) == CVEC_NOT_SO && client == NULL, "a client of no type");
    check(open_descriptors() == before + 4, "a client that is refused has closed a pipe");
    check(cvec_client_of(&client, CVEC_I64, requests[1], answers[0]) == CVEC_DONE, "no client");
    try_sends(client, requests[0], answers[1]);
    const int sent = bytes_in(requests[0]);
    cvec_client_close(&client);
    check(client == NULL && bytes_in(requests[0]) == sent && open_descriptors() == before + 2, "a close leaves something, or asks for the end");
    close(requests[0]);
    close(answers[1]);
}

static int is_so(cvec_status status) { return status == CVEC_NOT_SO; }

static void try_nothing(void) {
    const uint64_t record = 5;
    uint64_t numbers[2] = {3, 3};
    size_t count = 3;
    int status = 3, ended_by = 3;
    cvec_receipt receipt = {3, 3, 3, 3, 3};
    cvec_server *server = NULL;
    cvec_client *client = NULL;
    check(is_so(cvec_client_grow_u64(client, &record, 1, &receipt)) && is_so(cvec_client_send(client, CVEC_U64, &record, 1)), "it grows");
    check(is_so(cvec_client_take(client, &receipt)) && is_so(cvec_client_settle(client, numbers)), "it takes or settles");
    check(is_so(cvec_client_look(client, &numbers[0], &numbers[1])) && is_so(cvec_client_read_u64(client, 0, numbers, 2, &count)), "it reads");
    check(is_so(cvec_server_client(server, 0, &client)) && client == NULL, "it has a client");
    check(is_so(cvec_server_wait(&server, &status, &ended_by)) && server == NULL, "it is waited for");
    cvec_client_close(&client);
    check(cvec_client_end(&client) == CVEC_DONE && client == NULL, "its end is no end");
    check(receipt.number == 3 && receipt.len == 3 && numbers[0] == 3 && numbers[1] == 3 && count == 3 && status == 3 && ended_by == 3,
          "a number was written");
}

int main(void) {
    signal(SIGPIPE, SIG_IGN);
    try_start();
    try_system();
    try_client();
    try_turned();
    try_nothing();
    return wrong != 0;
}
