#!/usr/bin/env python3
"""Four client processes append records in blocks, while the server is killed and started again ten times: each block that
a client was told is settled stands in the file, whole and once, at the position that its growth was told. A kill comes a
moment after some blocks of that server were told, while its clients go on without an end; those of the last server end.
Before that, a seat whose request an exception has left is told nothing more.

serve.py PROGRAM FOLDER [RECORDS [CLIENT]]

CLIENT is the built examples/c/append_blocks.c: every second client is it, and the others use the client in Python.
"""
import os
import random
import select
import signal
import sys
import time

sys.path.insert(0, os.path.join(os.path.dirname(os.path.abspath(__file__)), "..", "bindings", "python"))
import cvec

PROGRAM, FOLDER = sys.argv[1], sys.argv[2]
RECORDS = int(sys.argv[3]) if len(sys.argv) > 3 else 1_000_000
CLIENT_IN_C = sys.argv[4] if len(sys.argv) > 4 else None
BLOCK, CLIENTS, KILLS = 1_000, 4, 10
EACH = RECORDS // BLOCK // CLIENTS
NEVER = 1 << 32  # a block that no client comes to
PATH, LATE_PATH = os.path.join(FOLDER, "served.cv"), os.path.join(FOLDER, "late.cv")


def block_of(client, number):
    """No two blocks of this test are alike, and each tells whose it is."""
    first = (client * NEVER + number) * BLOCK
    return list(range(first, first + BLOCK))


def append(seat, client, number, end, told):
    """Appends from this block on to the end, or until the server is gone. Writes each that is told as settled, with its
    position."""
    try:
        while number < end:
            group = range(number, min(number + random.randint(1, 4), end))
            starts = [seat.grow(block_of(client, n))[1] for n in group]
            seat.settle()
            for n, start in zip(group, starts):
                os.write(told, f"{n} {start}\n".encode())
            number = group[-1] + 1
        seat.end()
    except cvec.Gone:
        pass


def become_client_in_c(seat, client, number, end, told):
    """Is the client in C from here on, which appends the same blocks."""
    for descriptor in (seat.requests, seat.answers):
        os.set_inheritable(descriptor, True)
    os.dup2(told, 1)
    words = (seat.requests, seat.answers, number, end, client * NEVER, BLOCK)
    os.execv(CLIENT_IN_C, [CLIENT_IN_C, *map(str, words)])


def start_client(server, client, number, end):
    """The client's process, and where it tells what is settled."""
    taken, told = os.pipe()
    pid = os.fork()
    if pid == 0:
        os.close(taken)
        for other, seat in enumerate(server.seats):
            if other != client:
                seat.close()
        if CLIENT_IN_C and client % 2 == 1:
            become_client_in_c(server.seats[client], client, number, end, told)
        append(server.seats[client], client, number, end, told)
        os._exit(0)
    os.close(told)
    server.seats[client].close()
    return pid, taken


class Told:
    """What the clients of a server tell is settled, by the pipes where they do."""

    def __init__(self, settled, pipes):
        self.settled, self.blocks = settled, 0
        self.clients, self.begun = {taken: client for client, taken in enumerate(pipes)}, dict.fromkeys(pipes, b"")

    def take(self, enough=float("inf")):
        """Notes it until that are so many blocks, or all clients have ended."""
        while self.clients and self.blocks < enough:
            for taken in select.select(self.clients, [], [])[0]:
                read = os.read(taken, 65536)
                *lines, self.begun[taken] = (self.begun[taken] + read).split(b"\n")
                for line in lines:
                    self.note(self.clients[taken], *map(int, line.split()))
                if not read:
                    assert not self.begun[taken], "a block was told by half"
                    del self.clients[taken]
                    os.close(taken)

    def note(self, client, number, start):
        assert number == len(self.settled[client]), "a block was told out of turn"
        self.settled[client].append(start)
        self.blocks += 1


def one_server(settled, kill_after):
    """Serves all clients until each has appended its blocks, or kills the server a moment after so many blocks were told."""
    server = cvec.Server(PATH, "u64", seats=CLIENTS, program=PROGRAM)
    numbers = [len(starts) for starts in settled]
    ends = [number + EACH if kill_after is None else NEVER for number in numbers]
    clients = [start_client(server, client, numbers[client], ends[client]) for client in range(CLIENTS)]
    told = Told(settled, [taken for _, taken in clients])
    if kill_after is not None:
        told.take(kill_after)
        time.sleep(random.uniform(0, 0.02))
        server.process.send_signal(signal.SIGKILL)
    # Before the server is waited for: a client whose pipe is full goes on only when that is read.
    told.take()
    for pid, _ in clients:
        assert os.waitstatus_to_exitcode(os.waitpid(pid, 0)[1]) == 0, "a client failed"
    status = server.wait()
    assert status == (0 if kill_after is None else -signal.SIGKILL), f"the server ended with {status}"
    return [len(starts) for starts in settled] == ends


def check(settled):
    """The file has each settled block at its place, and only whole blocks."""
    with cvec.Server(PATH, "u64", program=PROGRAM) as server:
        records = list(server.seats[0].read())
    assert len(records) % BLOCK == 0, "a block isn't whole"
    for at in range(0, len(records), BLOCK):
        first = int(records[at])
        assert first % BLOCK == 0 and records[at:at + BLOCK] == list(range(first, first + BLOCK)), "no block stands there"
    for client, starts in enumerate(settled):
        for number, start in enumerate(starts):
            assert int(records[start]) == (client * NEVER + number) * BLOCK, "a settled block isn't where it was told"
    return len(records)


class Late(Exception):
    """A request takes too long."""


def raise_late(*_):
    raise Late()


def leave(server, request):
    """Makes a request of a server that stands still, which the handler of a signal leaves."""
    server.process.send_signal(signal.SIGSTOP)
    os.waitid(os.P_PID, server.process.pid, os.WSTOPPED)
    signal.setitimer(signal.ITIMER_REAL, 0.5)
    try:
        request()
    except Late:
        return
    finally:
        server.process.send_signal(signal.SIGCONT)
    raise AssertionError("a server that stands still answers")


def is_gone(request):
    try:
        request()
    except cvec.Gone:
        return True
    return False


def check_left_requests():
    """What a seat asks behind a request that was left isn't answered by that one's answer, and its end waits for nothing."""
    signal.signal(signal.SIGALRM, raise_late)
    create(LATE_PATH)
    with cvec.Server(LATE_PATH, "u64", seats=3, program=PROGRAM) as server:
        settling, growing, other = server.seats
        settling.grow([5])
        growing.look()
        leave(server, settling.settle)
        leave(server, lambda: growing.grow(range(20_000)))  # more than a pipe holds
        signal.alarm(60)
        assert is_gone(settling.settle) and is_gone(growing.look), "a seat goes on behind a request that was left"
        other.grow([6])
        other.settle()
    signal.alarm(0)
    with cvec.Server(LATE_PATH, "u64", program=PROGRAM) as server:
        assert list(server.seats[0].read()) == [5, 6], "a request that was left has grown the vector"
    os.remove(LATE_PATH)


def create(path):
    if os.system(f"'{PROGRAM}' create u64 '{path}' >/dev/null") != 0:
        sys.exit("no file was made")


def main():
    random.seed(7)
    check_left_requests()
    create(PATH)
    settled = [[] for _ in range(CLIENTS)]
    for _ in range(KILLS):
        one_server(settled, random.randint(0, CLIENTS * EACH // KILLS))
        check(settled)
    assert one_server(settled, None), "a client has blocks left"
    size = check(settled)
    os.remove(PATH)
    blocks = sum(len(starts) for starts in settled)
    print(f"{CLIENTS} clients, {KILLS} kills, {blocks} blocks settled, {size // BLOCK} blocks stand")


main()
