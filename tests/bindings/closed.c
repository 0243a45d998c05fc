/* A client whose standard streams are closed: closed PROGRAM FILE. The status is 0 where no pipe has one of their numbers, be it
 * for a moment, what is printed there goes nowhere, and a growth of the record 7 by each of three seats is settled; and where there
 * is no /dev/null, no pipe keeps one. */
#define _GNU_SOURCE 1
#include <errno.h>
#include <fcntl.h>
#include <string.h>
#include <sys/resource.h>
#include <unistd.h>

static int has_had_theirs; /* whether a pipe has had such a number */

static int test_pipe2(int ends[2], int flags) {
    const int answer = pipe2(ends, flags);
    if (answer == 0 && (ends[0] <= STDERR_FILENO || ends[1] <= STDERR_FILENO)) has_had_theirs = 1;
    return answer;
}

static int is_null_gone; /* whether there is no /dev/null */

static int test_open(const char *path, int flags, mode_t mode) {
    if (!is_null_gone || strcmp(path, "/dev/null") != 0) return open(path, flags, mode);
    errno = ENOENT;
    return -1;
}

#define pipe2 test_pipe2
#define open test_open
#include "system.c"
#undef pipe2
#undef open
#include "types.c"
#include <client.c>

enum { SEATS = 3 };

/* And no program that is run has it. */
static int is_behind_streams(const cvec_client *client) {
    return client->requests > STDERR_FILENO && client->answers > STDERR_FILENO && client->requests != client->answers &&
           fcntl(client->requests, F_GETFD) == FD_CLOEXEC && fcntl(client->answers, F_GETFD) == FD_CLOEXEC;
}

/* Without /dev/null a pipe has such a number for a moment alone. Where an end can get no other, both are closed. */
static int are_pipes_moved(void) {
    int ends[2];
    struct rlimit most, few;
    if (getrlimit(RLIMIT_NOFILE, &most)) return 0;
    few = most;
    few.rlim_cur = STDERR_FILENO + 2; /* for one end */
    is_null_gone = 1;
    const int is_moved = cvec_system_pipe(ends) == CVEC_DONE && ends[0] > STDERR_FILENO && ends[1] > STDERR_FILENO && !close(ends[0]) && !close(ends[1]);
    const int is_refused = !setrlimit(RLIMIT_NOFILE, &few) && cvec_system_pipe(ends) != CVEC_DONE && !setrlimit(RLIMIT_NOFILE, &most);
    is_null_gone = has_had_theirs = 0;
    for (int fd = 0; fd <= STDERR_FILENO + 1; fd++)
        if (fcntl(fd, F_GETFD) >= 0) return 0;
    return is_moved && is_refused;
}

int main(int argc, char **argv) {
    const uint64_t record = 7;
    cvec_server *server;
    cvec_client *clients[SEATS];
    uint64_t settled;
    int status = -1;
    if (argc != 3) return 2;
    for (int fd = 0; fd <= STDERR_FILENO + 1; fd++) close(fd);
    if (!are_pipes_moved()) return 10;
    if (cvec_server_start(&server, argv[1], CVEC_U64, argv[2], SEATS)) return 3;
    for (uint16_t k = 0; k < SEATS; k++)
        if (cvec_server_client(server, k, &clients[k]) || !is_behind_streams(clients[k])) return 4;
    if (has_had_theirs) return 5;
    for (int stream = STDOUT_FILENO; stream <= STDERR_FILENO; stream++)
        if (write(stream, "a line\n", 7) != -1 || errno != EBADF) return 5;
    for (int k = 0; k < SEATS; k++) {
        if (cvec_client_grow_u64(clients[k], &record, 1, NULL)) return 6;
        if (cvec_client_settle(clients[k], &settled)) return 7;
    }
    for (int k = 0; k < SEATS; k++)
        if (cvec_client_end(&clients[k])) return 8;
    return cvec_server_wait(&server, &status, NULL) == CVEC_DONE && status == 0 ? 0 : 9;
}
