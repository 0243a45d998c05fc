"""Follows a table of cases by cvec.Server, as client.c does by cvec.h: client.py FILE"""
import os
import pathlib
import signal
import struct
import sys
import threading

from cvec import Gone, Refused, Server, server as servers
from words import listed, record_of

LONGEST_WAIT = 120
server, kind = None, None
last = None  # of what raised Gone


def seat(name):
    return server.seats[int(name)]


def start(program, type, path, seats):
    global server, kind
    server, kind = Server(path, type, seats=int(seats), program=program), type
    return "done"


def grow(name, *words):
    return "growth %d at %d" % seat(name).grow([record_of(kind, it) for it in words])


def read(name, start, count):
    return listed(kind, seat(name).piece(int(start), int(count)))


def read_all(name, *start):
    return listed(kind, seat(name).read(*map(int, start)))


def within(how):
    """Leaves a block of `with` well, or by an exception of its own."""
    try:
        with server:
            if how == "badly":
                raise KeyError
    except KeyError:
        return "the block's own"
    except Gone as it:
        return f"gone: {it}"
    return "done"


def texts():
    return "; ".join(str(servers._refusal(number)) for number in range(1, 15))


def kill():
    """The server has ended when this returns, and is still to be waited for."""
    server.process.send_signal(signal.SIGKILL)
    os.waitid(os.P_PID, server.process.pid, os.WEXITED | os.WNOWAIT)


def leave(name):
    """Closes the pipes of a seat, behind a request whose answer nobody reads."""
    it = seat(name)
    os.close(it.answers)
    head = struct.pack("<IIQ", servers.LOOK, 0, 0)
    while head:
        head = head[os.write(it.requests, head):]
    os.close(it.requests)


def leave_in(name, *words):
    """Leaves a request of a server that doesn't answer, by the exception of a signal's handler."""
    def late(*_):
        raise KeyError("left")

    signal.signal(signal.SIGUSR1, late)
    threading.Timer(0.2, os.kill, (os.getpid(), signal.SIGUSR1)).start()
    return answer(words[0], name, *words[1:])


def close(name):
    seat(name).close()
    return "done"


def end(name):
    seat(name).end()
    return "done"


def wait():
    try:
        status = server.wait()
    except ChildProcessError as it:
        return f"not waited for: {it.strerror}"
    if status >= 0:
        return f"ended {status}"
    return "killed" if status == -signal.SIGKILL else f"ended by signal {-status}"


def block(number):
    """Blocks this signal in the client from now on."""
    signal.pthread_sigmask(signal.SIG_BLOCK, [int(number)])


def ignoring(*words):
    """Follows a command while nothing is kept of a child that ends."""
    signal.signal(signal.SIGCHLD, signal.SIG_IGN)
    try:
        return answer(*words)
    finally:
        signal.signal(signal.SIGCHLD, signal.SIG_DFL)


def forked(*words):
    """Follows a command in a forked process, which leaves the pipes of the client."""
    sys.stdout.flush()
    pid = os.fork()
    if pid == 0:
        print(answer(*words), flush=True)
        os._exit(0)
    os.waitpid(pid, 0)


def in_threads(*words):
    """Follows a command in as many threads as there are seats, each with a seat."""
    told = [None] * len(server.seats)

    def follow(name):
        told[name] = answer(words[0], str(name), *words[1:])

    threads = [threading.Thread(target=follow, args=(name,)) for name in range(len(told))]
    for thread in threads:
        thread.start()
    for thread in threads:
        thread.join()
    return ", ".join(told)


def shell(*words):
    os.system(" ".join(words))


COMMANDS = {
    "serve": start, "grow": grow, "await": lambda name: f"settled {seat(name).settle()}", "read": read,
    "look": lambda name: "size %d settled %d" % seat(name).look(), "leave": leave, "end": end, "kill": kill, "wait": wait,
    "sh": shell, "all": read_all, "within": within, "texts": texts, "ignoring": ignoring, "forked": forked,
    "block": block,
    "threads": in_threads, "why": lambda: f"{last}; status {last.exit_status}", "leave_in": leave_in, "close": close,
    "serve_bytes": lambda program, type, path, seats: start(program, type, os.fsencode(path), seats),
    "serve_path": lambda program, type, path, seats: start(program, type, pathlib.Path(path), seats),
}


def answer(word, *words):
    global last
    try:
        return COMMANDS[word](*words)
    except Refused as it:
        return f"refused {it.status - 96}"
    except Gone as it:
        last = it
        return "gone"
    except OSError as it:
        return f"no server: {it.strerror}"
    except (KeyError, ValueError) as it:
        return f"refused here: {str(it).split(': ')[0]}"


def main(path):
    # It is closed, so that the first pipe may be where the server's is to be.
    with open(path) as table:
        lines = table.readlines()
    for line in lines:
        if line[0] in "#\n>":
            sys.stdout.write(line)
        if line[0] == ">":
            sys.stdout.flush()
            signal.alarm(LONGEST_WAIT)  # a wait for what never comes is a wrong answer too
            told = answer(*line[2:].split())
            if told is not None:
                print(told)


main(*sys.argv[1:])
