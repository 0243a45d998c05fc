/* A client in C of a server that another program started: appends blocks of u64 numbers through one seat, one to four of them
 * before each wait, and writes for each, once it is durable, its number and the position where it begins.
 *
 *     append_blocks REQUESTS ANSWERS NUMBER END BASE LENGTH
 *
 * REQUESTS and ANSWERS are the seat's descriptors, NUMBER is the first block, and END the number behind the last one. Block n
 * has LENGTH numbers, from (BASE + n) * LENGTH on. Where the server is gone it ends, with what was durable told.
 *
 * By hand, with two named pipes and a client that appends 8 blocks of 1,000 numbers:
 *
 *     cc -Ibindings/c/include -o append_blocks examples/c/append_blocks.c bindings/c/src/client.c bindings/c/src/system.c bindings/c/src/types.c
 *     ./cvec create u64 numbers.cvec
 *     mkfifo requests answers
 *     (trap '' PIPE && exec ./cvec serve u64 numbers.cvec --seats=1) 3<requests 4>answers &
 *     ./append_blocks 3 4 0 8 0 1000 3>requests 4<answers
 *     wait $! */
#include "cvec.h"

#include <inttypes.h>
#include <signal.h>
#include <stdio.h>
#include <stdlib.h>

enum { GROUP = 4, LONGEST = 131071 };

static uint64_t block[LONGEST];

static cvec_status grow_block(cvec_client *client, uint64_t number, size_t length, cvec_receipt *receipt) {
    for (size_t at = 0; at < length; at++) block[at] = number * length + at;
    return cvec_client_grow_u64(client, block, length, receipt);
}

/* CVEC_DONE: so many blocks from this number on are durable, and were told. What isn't told is CVEC_DISK_WRITE, and the server goes on. */
static cvec_status append_group(cvec_client *client, uint64_t number, uint64_t count, uint64_t base, size_t length) {
    cvec_receipt receipts[GROUP];
    uint64_t settled;
    cvec_status status = CVEC_DONE;
    for (uint64_t at = 0; at < count && status == CVEC_DONE; at++)
        status = grow_block(client, base + number + at, length, &receipts[at]);
    if (status == CVEC_DONE) status = cvec_client_settle(client, &settled);
    if (status != CVEC_DONE) return status;
    for (uint64_t at = 0; at < count; at++) printf("%" PRIu64 " %" PRIu64 "\n", number + at, receipts[at].start);
    return fflush(stdout) == 0 ? CVEC_DONE : CVEC_DISK_WRITE;
}

int main(int argc, char **argv) {
    if (argc != 7) return 2;
    cvec_client *client;
    uint64_t number = strtoull(argv[3], NULL, 10), end = strtoull(argv[4], NULL, 10), base = strtoull(argv[5], NULL, 10);
    unsigned long length = strtoul(argv[6], NULL, 10);
    if (length == 0 || length > LONGEST || cvec_client_of(&client, CVEC_U64, atoi(argv[1]), atoi(argv[2]))) return 2;
    signal(SIGPIPE, SIG_IGN);
    for (uint64_t count; number < end; number += count) {
        count = number % GROUP + 1;
        if (count > end - number) count = end - number;
        const cvec_status status = append_group(client, number, count, base, length);
        if (status != CVEC_DONE) return status == CVEC_GONE ? 0 : 1;
    }
    const cvec_status ended = cvec_client_end(&client);
    return ended == CVEC_DONE || ended == CVEC_GONE ? 0 : 1;
}
