"""What the programs of this folder share, which keep a copy of a vector by `cvec follow --events`. Their status:

0  the command that follows has ended with 0, as with --once
1  it was stopped, or what keeps the copy failed: the same command goes on
2  the words are wrong, or there is no such command
3  following was refused: going on doesn't help"""
import io
import os
import re
import subprocess
import sys

STOPPED, USAGE, REFUSED = 1, 2, 3
# What a shell ends with that finds no such command, or none that may be run: so too at the other end of ssh.
NO_COMMAND = 126, 127
NUMBER, BYTES = r"\d+", "|".join(f"[0-9a-f]{{{2 * width}}}" for width in (16, 24, 32, 64))
FLOAT = r"-?\d+(?:[.]\d+)?(?:e-?\d+)?|-?inf|NaN(?::\d+)?"
RECORD = rf"(?:-?\d+(?::-?\d+)?|{FLOAT}|{BYTES})"
# No word but numbers, joined by colons, floats, and bytes in hexadecimal: it can stand in a statement or a command as it is.
LINE = re.compile(rf"(?:[+] {RECORD}|= {NUMBER} {RECORD}|< {NUMBER}|[.] {NUMBER}(?::{NUMBER})*)\n", re.ASCII)


class End(Exception):
    """The program ends with this status."""

    def __init__(self, status, why):
        super().__init__(why)
        self.status = status


def lines_of(command, place):
    """The lines that the command writes behind this PLACE, or from the first record on where it is empty: the sign and
    the words of each. What stands behind the last "." is no whole step, and is to be forgotten."""
    words = [*command, f"--after={place}"] if place else command
    with subprocess.Popen(words, stdin=subprocess.DEVNULL, stdout=subprocess.PIPE) as child:
        try:
            for line in io.TextIOWrapper(child.stdout, "ascii", "replace", "\n"):
                if LINE.fullmatch(line):
                    yield line.split()
                elif line.startswith("refused: "):
                    raise End(REFUSED, line.strip())
                elif line.endswith("\n"):
                    raise End(REFUSED, f"no line of a step: {line.strip()}")
                # Else a kill has cut the line.
        except BaseException:
            child.kill()
            raise
    if child.returncode != 0:
        status = {REFUSED: REFUSED, **dict.fromkeys((USAGE, *NO_COMMAND), USAGE)}.get(child.returncode, STOPPED)
        raise End(status, f"{command[0]} ended with status {child.returncode}")


class Copy:
    """What does the steps. `place` is that of the last one, and what was begun and not committed leaves nothing."""
    pipe = None

    def close(self):
        if self.pipe:
            self.pipe.kill()


class NetCopy(Copy):
    """One that does a step at its end, by what its lines come to: of `size` records so many are kept, some are changed, and
    a tail comes behind them."""

    def begin(self):
        self.length, self.changes, self.tail = self.size, {}, []

    def append(self, record):
        self.tail.append(record)

    def replace(self, position, record):
        if position < self.length:
            self.changes[position] = record
        else:
            self.tail[position - self.length] = record

    def cut(self, length):
        del self.tail[max(length - self.length, 0):]
        self.length = min(self.length, length)
        self.changes = {position: it for position, it in self.changes.items() if position < length}


def keep(copy, command):
    """Has the copy do each step that comes behind its PLACE."""
    is_begun = False
    try:
        for sign, *words in lines_of(command, copy.place):
            if not is_begun:
                copy.begin()
            is_begun = sign != "."
            if sign == "+":
                copy.append(words[0])
            elif sign == "=":
                copy.replace(int(words[0]), words[1])
            elif sign == "<":
                copy.cut(int(words[0]))
            else:
                copy.commit(words[0])
    finally:
        copy.close()


def answer_of(command, text="", **options):
    """What a command writes, given this text, if it ends with status 0."""
    done = subprocess.run(command, input=text, stdout=subprocess.PIPE, encoding="ascii", **options)
    if done.returncode != 0:
        raise End(STOPPED, f"{' '.join(command[:2])} ended with status {done.returncode}: {done.stdout.strip()}")
    return done.stdout.strip()


class Pipe:
    """A command that is given text piece by piece. One that is killed has not come to the end of what it was given."""

    def __init__(self, command):
        self.command = command
        self.child = subprocess.Popen(command, stdin=subprocess.PIPE, stdout=subprocess.DEVNULL, encoding="ascii")

    def write(self, text):
        self.child.stdin.write(text)

    def end(self):
        """Waits until the command has ended, which must be with status 0."""
        self.child.stdin.close()
        if self.child.wait() != 0:
            raise End(STOPPED, f"{' '.join(self.command[:2])} ended with status {self.child.returncode}")

    def kill(self):
        self.child.kill()


def put_file(path, text):
    """The file has this text on the device, or is as it was, whatever stops this program."""
    with open(f"{path}.new", "w") as file:
        file.write(text)
        file.flush()
        os.fsync(file.fileno())
    os.rename(f"{path}.new", path)
    folder = os.open(os.path.dirname(os.path.abspath(path)), os.O_RDONLY)
    os.fsync(folder)
    os.close(folder)


def run(main, usage, least, *faults):
    """Runs the main function of a program on its words, at least so many. These faults are of what keeps the copy."""
    try:
        if len(sys.argv) <= least:
            raise End(USAGE, f"usage: {usage}")
        main(*sys.argv[1:])
    except (FileNotFoundError, PermissionError) as fault:
        why, status = fault, USAGE
    except (OSError, *faults) as fault:
        why, status = fault, STOPPED
    except End as end:
        why, status = end, end.status
    else:
        return
    print(f"{sys.argv[0]}: {why}", file=sys.stderr)
    sys.exit(status)
