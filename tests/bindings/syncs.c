/* Behind LD_PRELOAD, for who syncs: while the file is there that GATE names, it waits before it, and a file GATE.held says so;
 * where KILL_AT is a number, the process is killed in place of that sync. */
#include <fcntl.h>
#include <signal.h>
#include <stdio.h>
#include <stdlib.h>
#include <unistd.h>

static void wait_before(const char *gate) {
    char held[4096];
    snprintf(held, sizeof held, "%s.held", gate);
    if (access(gate, F_OK) == 0) close(open(held, O_CREAT | O_WRONLY, 0600));
    while (access(gate, F_OK) == 0) usleep(1000);
}

int fdatasync(int fd) {
    static int made;
    const char *gate = getenv("GATE"), *kill_at = getenv("KILL_AT");
    if (gate != NULL) wait_before(gate);
    if (kill_at != NULL && __atomic_add_fetch(&made, 1, __ATOMIC_SEQ_CST) == atoi(kill_at)) kill(getpid(), SIGKILL);
    return fsync(fd);
}
