#!/usr/bin/env python3
"""A server that does what a file says: false_server serve TYPE FILE --seats=N. Lines of FILE:

SEAT get HEX   these bytes are asked
SEAT put HEX   these bytes are answered
SEAT end       nothing more is asked, and the pipe is shut
die [N]        it is killed, or ended by the signal N
exit N         it ends
shut           it shuts the pipes of answers

What was asked otherwise is written to FILE.wrong; so is it where pipes are missing, or it has more ends than its own.
"""
import os
import signal
import sys

_, word, _, path, seats = sys.argv
count = int(seats.removeprefix("--seats="))


def wrong(text):
    with open(path + ".wrong", "a") as file:
        file.write(text + "\n")
    os._exit(3)


def file_of(descriptor):
    """The file of a descriptor, or None."""
    try:
        return os.fstat(descriptor).st_ino
    except OSError:
        return None


def take(seat, wanted):
    seen = b""
    while len(seen) < len(wanted):
        part = os.read(3 + 2 * seat, len(wanted) - len(seen))
        if not part:
            break
        seen += part
    if seen != wanted:
        wrong(f"{seen.hex()} was asked, and not {wanted.hex()}")


def follow(words):
    if words[0] == "die":
        os.kill(os.getpid(), int(words[1]) if words[1:] else signal.SIGKILL)
    if words[0] == "exit":
        os._exit(int(words[1]))
    if words[0] == "shut":
        for at in range(count):
            os.close(4 + 2 * at)
        return
    seat, data = int(words[0]), bytes.fromhex("".join(words[2:]))
    if words[1] == "get":
        take(seat, data)
    elif words[1] == "put":
        os.write(4 + 2 * seat, data)
    elif os.read(3 + 2 * seat, 1):
        wrong("more was asked")


def is_inherited(descriptor):
    """Whether it is the client's own, as the client got it."""
    path = f"/proc/{os.getppid()}/fd/{descriptor}"
    return os.path.exists(path) and os.stat(path).st_ino == file_of(descriptor) == file_of(1)


# The client's ends are none of the server's: it would wait for itself. Nor is its standard output a further one.
pipes = [file_of(it) for it in range(3, 3 + 2 * count)]
left = [it for it in range(3 + 2 * count, 256) if file_of(it) in pipes + [file_of(1)] and not is_inherited(it)]
if word != "serve" or None in pipes or left:
    wrong(f"{word} with the pipes {pipes}, and {left} beside them")
if os.readlink("/proc/self/fd/1") != "/dev/null":
    wrong("standard output isn't /dev/null")
with open(path) as lines:
    script = [line.split() for line in lines]
for line in script:
    follow(line)
