/* A server that is started here, and its clients, by pipes: docs/use/serve.md tells the bytes. It isn't proved. */
#define _GNU_SOURCE 1
#include "system.h"
#include "types.h"

#include <errno.h>
#include <fcntl.h>
#include <signal.h>
#include <stdio.h>
#include <stdlib.h>
#include <string.h>
#include <sys/wait.h>
#include <unistd.h>

enum { END = 0, GROW = 1, SETTLE = 2, LOOK = 3, READ = 4 };
enum { REQUEST_LEN = 16, ANSWER_LEN = 24 };

/* The refusals of a server have these numbers and more in the list of statuses. After one up to LAST_END it reads no more. */
enum { FIRST_REFUSAL = CVEC_REFUSED_UNKNOWN_KIND - 1, LAST_END = CVEC_REFUSED_NO_MEMORY, LAST_REFUSAL = CVEC_REFUSED_BROKEN };

enum { SEAT_LIMIT = 64 };

/* The most bytes that the records of one request have. */
enum { RECORDS_LIMIT = (1 << 20) - 8 };

/* So many records of flagged are packed at once. */
enum { PACKED_AT_ONCE = 450 };

/* The descriptor at which a server has the first of its pipes; the others follow. */
enum { FIRST_PIPE = 3 };

/* A client's ends of its two pipes. */
struct cvec_client {
    int requests;
    int answers;
    uint16_t seat;  /* its number */
    size_t width;   /* the bytes of a record */
    bool is_over;   /* the server reads no more of it, or an answer wasn't read whole */
    uint64_t grown; /* so many growths were answered, and not refused */
    uint32_t *lens; /* of the growths whose answers aren't taken how many records each has: a ring, from `first` on */
    size_t room;
    size_t first;
    size_t untaken; /* so many there are */
};

struct cvec_server {
    pid_t pid;
    uint64_t process; /* the one that started it */
    uint16_t count;
    cvec_client *clients[SEAT_LIMIT]; /* those that nobody has taken, else NULL */
};

struct answer {
    uint32_t count;
    uint64_t first, second;
};

/* ---- bytes */

static void put(unsigned char *bytes, uint64_t number, int len) {
    for (int i = 0; i < len; i++) bytes[i] = (unsigned char)(number >> (8 * i));
}

static uint64_t take(const unsigned char *bytes, int len) {
    uint64_t number = 0;
    for (int i = 0; i < len; i++) number |= (uint64_t)bytes[i] << (8 * i);
    return number;
}

/* The answer of a client that is over, as of one whose other end is closed. */
static cvec_status fail(void) {
    errno = EPIPE;
    return CVEC_GONE;
}

/* What a client that is over asked would never be answered. */
static cvec_status send_bytes(cvec_client *client, const void *bytes, size_t len) {
    if (client->is_over) return fail();
    client->is_over = cvec_system_write(client->requests, bytes, len) != CVEC_DONE;
    return client->is_over ? CVEC_GONE : CVEC_DONE;
}

static cvec_status take_bytes(cvec_client *client, void *bytes, size_t len) {
    if (client->is_over) return fail();
    client->is_over = cvec_system_read(client->answers, bytes, len) != CVEC_DONE;
    return client->is_over ? CVEC_GONE : CVEC_DONE;
}

static cvec_status send_head(cvec_client *client, uint32_t kind, uint32_t count, uint64_t start) {
    unsigned char head[REQUEST_LEN];
    put(head, kind, 4);
    put(head + 4, count, 4);
    put(head + 8, start, 8);
    return send_bytes(client, head, sizeof head);
}

/* A number that is no refusal of a server's comes of none: nothing is known of what follows. */
static cvec_status status_of(cvec_client *client, uint32_t number) {
    if (number == 0) return CVEC_DONE;
    client->is_over = number <= LAST_END - FIRST_REFUSAL || number > LAST_REFUSAL - FIRST_REFUSAL;
    if (number <= LAST_REFUSAL - FIRST_REFUSAL) return (cvec_status)(FIRST_REFUSAL + number);
    errno = EPROTO;
    return CVEC_GONE;
}

static cvec_status take_head(cvec_client *client, struct answer *answer) {
    unsigned char head[ANSWER_LEN];
    const cvec_status taken = take_bytes(client, head, sizeof head);
    if (taken != CVEC_DONE) return taken;
    answer->count = (uint32_t)take(head + 4, 4);
    answer->first = take(head + 8, 8);
    answer->second = take(head + 16, 8);
    return status_of(client, (uint32_t)take(head, 4));
}

/* ---- requests */

/* Why a request may not be of so many records of this type: the server would end the client's seat, and read no more of it. */
static cvec_status refusal_of(const cvec_client *client, cvec_type type, size_t count) {
    if (client == NULL || cvec_bytes_of(type, 1) == 0) return CVEC_NOT_SO;
    if (cvec_bytes_of(type, 1) != client->width) return CVEC_WIDTH;
    if (count == 0) return CVEC_REFUSED_NO_RECORD;
    return count > RECORDS_LIMIT / client->width ? CVEC_REFUSED_TOO_MANY : CVEC_DONE;
}

/* Whether the next answer would be that of a growth that was sent before: it would be read as another request's. */
static bool is_owed(const cvec_client *client) { return !client->is_over && client->untaken > 0; }

static cvec_status ask(cvec_client *client, uint32_t kind, uint32_t count, uint64_t start, struct answer *answer) {
    if (is_owed(client)) return CVEC_BUSY;
    const cvec_status sent = send_head(client, kind, count, start);
    return sent == CVEC_DONE ? take_head(client, answer) : sent;
}

/* There is room for one growth more. */
static cvec_status take_room(cvec_client *client) {
    if (client->untaken < client->room) return CVEC_DONE;
    const size_t room = client->room == 0 ? 16 : 2 * client->room;
    uint32_t *lens = malloc(room * sizeof *lens);
    if (lens == NULL) return CVEC_MEMORY;
    for (size_t k = 0; k < client->untaken; k++) lens[k] = client->lens[(client->first + k) % client->room];
    free(client->lens);
    client->lens = lens;
    client->room = room;
    client->first = 0;
    return CVEC_DONE;
}

/* For a client that isn't over: the answer of the first growth that is owed. */
static cvec_status take_owed(cvec_client *client, cvec_receipt *receipt) {
    struct answer answer;
    const uint32_t len = client->lens[client->first];
    client->first = (client->first + 1) % client->room;
    client->untaken--;
    const cvec_status status = take_head(client, &answer);
    if (status == CVEC_DONE) *receipt = (cvec_receipt){answer.first, answer.second, len, client->grown++, client->seat};
    return status;
}

/* Takes all that is owed: the first answer that is a refusal, since its growth wasn't made. Those that the end of the client leaves are
 * never told. */
static cvec_status take_all_owed(cvec_client *client) {
    cvec_receipt receipt;
    cvec_status told = CVEC_DONE;
    while (is_owed(client)) {
        const cvec_status status = take_owed(client, &receipt);
        if (told == CVEC_DONE) told = status;
    }
    return told == CVEC_DONE && client->untaken > 0 ? fail() : told;
}

/* The records' bytes as a server has them. */
static cvec_status send_records(cvec_client *client, cvec_type type, const void *records, size_t count) {
    uint8_t packed[PACKED_AT_ONCE * FLAGGED_LEN];
    cvec_status sent = CVEC_DONE;
    if (type != CVEC_FLAGGED) return send_bytes(client, records, cvec_bytes_of(type, count));
    for (size_t k = 0; k < count && sent == CVEC_DONE; k += PACKED_AT_ONCE) {
        const size_t some = count - k < PACKED_AT_ONCE ? count - k : PACKED_AT_ONCE;
        cvec_pack((const cvec_flagged *)records + k, some, packed);
        sent = send_bytes(client, packed, some * FLAGGED_LEN);
    }
    return sent;
}

cvec_status cvec_client_send(cvec_client *client, cvec_type type, const void *records, size_t count) {
    cvec_status status = refusal_of(client, type, count);
    if (status == CVEC_DONE) status = take_room(client);
    if (status == CVEC_DONE) status = send_head(client, GROW, (uint32_t)count, 0);
    if (status == CVEC_DONE) status = send_records(client, type, records, count);
    if (status == CVEC_DONE) client->lens[(client->first + client->untaken++) % client->room] = (uint32_t)count;
    return status;
}

cvec_status cvec_client_take(cvec_client *client, cvec_receipt *receipt) {
    cvec_receipt unasked;
    if (client == NULL) return CVEC_NOT_SO;
    if (client->is_over) return fail();
    if (client->untaken == 0) return CVEC_NOT_SO;
    return take_owed(client, receipt == NULL ? &unasked : receipt);
}

cvec_status cvec_client_grow(cvec_client *client, cvec_type type, const void *records, size_t count, cvec_receipt *receipt) {
    cvec_status status = refusal_of(client, type, count);
    if (status == CVEC_DONE && is_owed(client)) status = CVEC_BUSY;
    if (status == CVEC_DONE) status = cvec_client_send(client, type, records, count);
    return status == CVEC_DONE ? cvec_client_take(client, receipt) : status;
}

cvec_status cvec_client_settle(cvec_client *client, uint64_t *settled) {
    struct answer answer;
    if (client == NULL) return CVEC_NOT_SO;
    const cvec_status status = ask(client, SETTLE, 0, 0, &answer);
    if (status == CVEC_DONE) *settled = answer.first;
    return status;
}

cvec_status cvec_client_look(cvec_client *client, uint64_t *size, uint64_t *settled) {
    struct answer answer;
    if (client == NULL) return CVEC_NOT_SO;
    const cvec_status status = ask(client, LOOK, 0, 0, &answer);
    if (status != CVEC_DONE) return status;
    *size = answer.first;
    *settled = answer.second;
    return CVEC_DONE;
}

/* More records than were asked for come of no server. */
cvec_status cvec_client_read(cvec_client *client, cvec_type type, uint64_t from, void *out, size_t room, size_t *count) {
    struct answer answer;
    cvec_status status = refusal_of(client, type, room);
    if (status == CVEC_DONE) status = ask(client, READ, (uint32_t)room, from, &answer);
    if (status != CVEC_DONE) return status;
    if (answer.count > room) client->is_over = true;
    status = take_bytes(client, out, cvec_bytes_of(type, answer.count));
    if (status != CVEC_DONE) return status;
    if (type == CVEC_FLAGGED) cvec_unpack(out, answer.count);
    *count = answer.count;
    return CVEC_DONE;
}

/* ---- clients */

static cvec_status new_client(cvec_client **client, size_t width, uint16_t seat) {
    *client = calloc(1, sizeof **client);
    if (*client == NULL) return CVEC_MEMORY;
    (*client)->requests = (*client)->answers = -1;
    (*client)->seat = seat;
    (*client)->width = width;
    return CVEC_DONE;
}

cvec_status cvec_client_of(cvec_client **client, cvec_type type, int requests, int answers) {
    *client = NULL;
    if (cvec_bytes_of(type, 1) == 0) return CVEC_NOT_SO;
    const cvec_status status = new_client(client, cvec_bytes_of(type, 1), 0);
    if (status != CVEC_DONE) return status;
    (*client)->requests = requests;
    (*client)->answers = answers;
    return CVEC_DONE;
}

void cvec_client_close(cvec_client **client) {
    cvec_client *closed = *client;
    *client = NULL;
    if (closed == NULL) return;
    if (closed->requests >= 0) cvec_system_close(closed->requests);
    if (closed->answers >= 0) cvec_system_close(closed->answers);
    free(closed->lens);
    free(closed);
}

cvec_status cvec_client_end(cvec_client **client) {
    struct answer answer;
    if (*client == NULL) return CVEC_DONE;
    cvec_status status = take_all_owed(*client);
    const cvec_status ended = (*client)->is_over ? CVEC_DONE : ask(*client, END, 0, 0, &answer);
    if (status == CVEC_DONE) status = ended;
    cvec_client_close(client);
    return status;
}

/* ---- servers */

static void close_pipes(int pipes[][2], int count) {
    for (int k = 0; k < count; k++)
        for (int i = 0; i < 2; i++) cvec_system_close(pipes[k][i]);
}

static cvec_status open_pipes(int pipes[][2], int count) {
    for (int k = 0; k < count; k++) {
        const cvec_status answer = cvec_system_pipe(pipes[k]);
        if (answer == CVEC_DONE) continue;
        close_pipes(pipes, k);
        return answer;
    }
    return CVEC_DONE;
}

/* In the child: what the server writes at its end isn't to stand among the client's lines, nor does it keep what the client
 * reads. */
static void mute(void) {
    int nothing = cvec_system_open_null(O_RDWR);
    if (nothing < 0 || dup2(nothing, STDIN_FILENO) < 0 || dup2(nothing, STDOUT_FILENO) < 0)
        _exit(127);
    if (nothing > STDOUT_FILENO) close(nothing);
}

/* In the child: a client that is gone is to end its seat, and no signal the server: in a session of its own it gets none of those
 * that a terminal sends to the client, which may still want to be told what is durable. Those that are sent to itself reach it,
 * also where the thread that starts it has blocked them. */
static void take_own_signals(void) {
    sigset_t none;
    if (setsid() < 0) _exit(127);
    signal(SIGPIPE, SIG_IGN);
    sigemptyset(&none);
    sigprocmask(SIG_SETMASK, &none, NULL);
}

/* In the child: the server's ends get their descriptors, by way of others, so that none is overwritten, and it is run. The words
 * were made before the fork: another thread may have had a lock then that making them would wait for. */
static void run(char *const words[], int pipes[][2], int count) {
    const int behind = FIRST_PIPE + 2 * count; /* and no further: few descriptors may be allowed */
    for (int k = 0; k < 2 * count; k++) pipes[k][k % 2] = fcntl(pipes[k][k % 2], F_DUPFD_CLOEXEC, behind);
    mute();
    for (int k = 0; k < 2 * count; k++)
        if (dup2(pipes[k][k % 2], FIRST_PIPE + k) < 0) _exit(127);
    take_own_signals();
    execvp(words[0], words);
    _exit(127);
}

static void free_server(cvec_server **server) {
    for (uint16_t k = 0; k < (*server)->count; k++) cvec_client_close(&(*server)->clients[k]);
    free(*server);
    *server = NULL;
}

/* Refused, it has as many of its clients as there was memory for. */
static cvec_status new_server(cvec_server **server, size_t width, uint16_t count) {
    cvec_status status = CVEC_DONE;
    *server = calloc(1, sizeof **server);
    if (*server == NULL) return CVEC_MEMORY;
    (*server)->process = cvec_process();
    (*server)->count = count;
    for (uint16_t k = 0; k < count && status == CVEC_DONE; k++) status = new_client(&(*server)->clients[k], width, k);
    return status;
}

/* The server runs these words, and has the other ends of the pipes of its clients. A process that the system refuses is a server that
 * has ended. */
static cvec_status start(cvec_server *server, char *const words[]) {
    int pipes[2 * SEAT_LIMIT][2]; /* for each client that of its requests, and that of its answers */
    const cvec_status opened = open_pipes(pipes, 2 * server->count);
    if (opened != CVEC_DONE) return opened;
    server->pid = fork();
    if (server->pid == 0) run(words, pipes, server->count);
    if (server->pid < 0) {
        close_pipes(pipes, 2 * server->count);
        return CVEC_GONE;
    }
    for (uint16_t k = 0; k < server->count; k++) {
        close(pipes[2 * k][0]);
        close(pipes[2 * k + 1][1]);
        server->clients[k]->requests = pipes[2 * k][1];
        server->clients[k]->answers = pipes[2 * k + 1][0];
    }
    return CVEC_DONE;
}

/* The word that the server of a type is started with. To a server floats are numbers, with their bytes. */
static const char *word_of(cvec_type type) {
    size_t count;
    return cvec_types(&count)[type == CVEC_F32 ? CVEC_U32 : type == CVEC_F64 ? CVEC_U64 : type].name;
}

cvec_status cvec_server_start(cvec_server **server, const char *program, cvec_type type, const char *file, uint16_t count) {
    char seats[32];
    const size_t width = cvec_bytes_of(type, 1);
    *server = NULL;
    if (width == 0) return CVEC_NOT_SO;
    if (count < 1 || count > SEAT_LIMIT) return CVEC_TOO_LARGE;
    snprintf(seats, sizeof seats, "--seats=%d", count);
    /* None is written. */
    char *const words[] = {(char *)program, (char *)"serve", (char *)word_of(type), (char *)file, seats, NULL};
    cvec_status status = new_server(server, width, count);
    if (status == CVEC_DONE) status = start(*server, words);
    if (status != CVEC_DONE && *server != NULL) free_server(server);
    return status;
}

cvec_status cvec_server_client(cvec_server *server, uint16_t number, cvec_client **client) {
    *client = NULL;
    if (server == NULL || number >= server->count || server->clients[number] == NULL) return CVEC_NOT_SO;
    *client = server->clients[number];
    server->clients[number] = NULL;
    return CVEC_DONE;
}

/* Until the process has ended, whichever signals come. */
static cvec_status wait_for(pid_t pid, int *status) {
    while (waitpid(pid, status, 0) < 0)
        if (errno != EINTR) return CVEC_GONE;
    return CVEC_DONE;
}

/* In a forked process the end of a client would be the parent's. */
cvec_status cvec_server_wait(cvec_server **server, int *exit_status, int *signal) {
    int ended = 0;
    if (*server == NULL) return CVEC_NOT_SO;
    const bool is_forked = (*server)->process != cvec_process();
    for (uint16_t k = 0; k < (*server)->count && !is_forked; k++) cvec_client_end(&(*server)->clients[k]);
    const cvec_status status = is_forked ? CVEC_FORKED : wait_for((*server)->pid, &ended);
    const int why = errno;
    free_server(server);
    errno = why;
    if (status != CVEC_DONE) return status;
    if (exit_status != NULL) *exit_status = WIFEXITED(ended) ? WEXITSTATUS(ended) : -1;
    if (signal != NULL) *signal = WIFSIGNALED(ended) ? WTERMSIG(ended) : 0;
    return CVEC_DONE;
}
