#!/usr/bin/env python3
"""A client at a terminal of its own, which has started a server: terminal.py HOW CLIENT WORD..

interrupt   once it has grown, Ctrl-C is typed. What it writes from then on is written
kill        once it has grown, it is killed, and with it the terminal ends. How the server ends is written
"""
import ctypes
import os
import pty
import signal
import sys
import termios

LONGEST_WAIT = 60
PR_SET_CHILD_SUBREAPER = 36


def become(words):
    """Is the client from here on. What a signal does is as it is where somebody types."""
    modes = termios.tcgetattr(0)
    modes[3] &= ~termios.ECHO
    termios.tcsetattr(0, termios.TCSANOW, modes)
    for number in (signal.SIGINT, signal.SIGHUP, signal.SIGQUIT):
        signal.signal(number, signal.SIG_DFL)
    os.execv(words[0], words)


def lines_of(terminal):
    """What is written there, line by line."""
    begun = b""
    while True:
        try:
            read = os.read(terminal, 65536)
        except OSError:  # all who had the terminal have ended
            return
        *lines, begun = (begun + read).split(b"\r\n")
        yield from (line.decode() for line in lines)


def status_of(pid):
    return os.waitstatus_to_exitcode(os.waitpid(pid, 0)[1])


def main(how, *words):
    # The server is this process's child once its own parent has ended.
    assert ctypes.CDLL(None).prctl(PR_SET_CHILD_SUBREAPER, 1, 0, 0, 0) == 0
    signal.alarm(LONGEST_WAIT)
    client, terminal = pty.fork()
    if client == 0:
        become(words)
    lines = lines_of(terminal)
    word, server = next(lines).split()
    assert word == "grown", word
    if how == "interrupt":
        os.write(terminal, b"\x03")
        for line in lines:
            print(line)
        assert status_of(client) == 0, "the client failed"
    else:
        os.kill(client, signal.SIGKILL)
        assert status_of(client) == -signal.SIGKILL
        os.close(terminal)
        print(f"ended {status_of(int(server))}")


main(*sys.argv[1:])
