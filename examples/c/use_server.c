/* Starts a server over a file of u64, and appends a block to it, durably: ./use_server PROGRAM FILE */
#include "cvec.h"

#include <signal.h>
#include <stdio.h>

int main(int argc, char **argv) {
    const uint64_t block[] = {5, 7, 11};
    uint64_t settled;
    int ended = 1;
    cvec_server *server;
    cvec_client *client = NULL;
    if (argc != 3) return 2;
    signal(SIGPIPE, SIG_IGN); /* so that a server that has ended is told as CVEC_GONE */
    cvec_status status = cvec_server_start(&server, argv[1], CVEC_U64, argv[2], 1);
    if (status == CVEC_DONE) status = cvec_server_client(server, 0, &client);
    if (status == CVEC_DONE) status = cvec_client_grow_u64(client, block, 3, NULL);
    if (status == CVEC_DONE) status = cvec_client_settle(client, &settled); /* CVEC_DONE: durable */
    if (status != CVEC_DONE) fprintf(stderr, "%s\n", cvec_status_text(status));
    cvec_client_end(&client);
    cvec_server_wait(&server, &ended, NULL);
    return status == CVEC_DONE && ended == 0 ? 0 : 1;
}
