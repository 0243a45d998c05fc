/* A client at a terminal: waits PROGRAM FILE. It starts a server, grows by COUNT records, and writes `grown` and the server's
 * process. A SIGINT ends its pause: it waits until its growths are settled, and writes how many are, and how the server ended. */
#include <client.c> /* which process it is, no caller sees */

#include <inttypes.h>

enum { COUNT = 200 };

static volatile sig_atomic_t is_interrupted;

static void note(int number) { is_interrupted = number; }

/* The signal comes within the pause, or it is taken in by it. */
static void pause_until_interrupted(const sigset_t *unblocked) {
    while (!is_interrupted) sigsuspend(unblocked);
}

int main(int argc, char **argv) {
    cvec_server *server;
    cvec_client *client;
    struct sigaction action = {.sa_handler = note};
    sigset_t blocked, unblocked;
    uint64_t settled = 0;
    int status = -1;
    if (argc != 3) return 2;
    sigaction(SIGINT, &action, NULL);
    signal(SIGPIPE, SIG_IGN);
    if (cvec_server_start(&server, argv[1], CVEC_U64, argv[2], 1) || cvec_server_client(server, 0, &client)) return 2;
    sigemptyset(&blocked);
    sigaddset(&blocked, SIGINT);
    sigprocmask(SIG_BLOCK, &blocked, &unblocked);
    for (uint64_t record = 0; record < COUNT; record++)
        if (cvec_client_grow_u64(client, &record, 1, NULL)) return 2;
    printf("grown %ld\n", (long)server->pid);
    fflush(stdout);
    pause_until_interrupted(&unblocked);
    const cvec_status answer = cvec_client_settle(client, &settled);
    if (answer == CVEC_DONE) printf("settled %" PRIu64 "\n", settled);
    else puts(cvec_status_text(answer));
    cvec_client_end(&client);
    cvec_server_wait(&server, &status, NULL);
    printf("ended %d\n", status);
    return 0;
}
