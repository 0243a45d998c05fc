#!/usr/bin/env python3
"""A copy of a vector is kept beside the program that writes it, by a script of examples/shipping, while the script, what it
follows by, or the server that has the copy is killed again and again. At each look the copy is the vector as it was at a
moment, and not before the one of the look before; at the end it is what a plain list is.

shipping.py PROGRAM SCRIPTS FOLDER WAY TYPE [KILLS [SEED]]

SCRIPTS is the folder examples/shipping, WAY one of apply, sqlite, redis, postgres and parts. FOLDER takes all files and
sockets. The last line says how many kills there were, and how many came in the midst of a step."""
import ctypes
import glob
import hashlib
import os
import random
import re
import shlex
import shutil
import signal
import socket
import subprocess
import sys
import threading
import time

PROGRAM, SCRIPTS, FOLDER = map(os.path.abspath, sys.argv[1:4])
WAY, KIND = sys.argv[4:6]
KILLS = int(sys.argv[6]) if len(sys.argv) > 6 else 12
SEED = int(sys.argv[7]) if len(sys.argv) > 7 else 1
PATIENCE = 60
LONGEST = 30_000


def at(name):
    return os.path.join(FOLDER, name)


FILE, NAME = at("t.cv"), "copy"


def lines_of(words, **options):
    return subprocess.run(words, stdout=subprocess.PIPE, text=True, check=True, timeout=PATIENCE, **options).stdout.split("\n")[:-1]


# ---- the vector, and a plain list beside it

# Of each type a random record, and the form of the record of a digit.
RECORDS = {
    "u64": (lambda pick: str(pick.choice([pick.randrange(10), pick.randrange(2**63, 2**64)])), "{}"),
    "i64": (lambda pick: str(pick.choice([-2**63, 2**63 - 1, pick.randrange(-9, 9)])), "{}"),
    "u8": (lambda pick: str(pick.randrange(2**8)), "{}"),
    "u16": (lambda pick: str(pick.choice([pick.randrange(2**8), pick.randrange(2**16)])), "{}"),
    "u32": (lambda pick: str(pick.randrange(2**32)), "{}"),
    "i32": (lambda pick: str(pick.choice([-2**31, 2**31 - 1, pick.randrange(-9, 9)])), "{}"),
    "f32": (lambda pick: pick.choice(["-0.0", "inf", "NaN", "NaN:4294967295", "1e-45", f"{pick.randrange(10**6)}.5"]), "{}.0"),
    "f64": (lambda pick: pick.choice(["0.0", "-inf", "NaN", "NaN:18446744073709551615", "-1e300", f"{pick.randrange(10**9)}.25"]), "{}.0"),
    "pair": (lambda pick: f"{pick.randrange(2**64)}:{pick.randrange(-2**63, 2**63)}", "{}:1"),
    "flagged": (lambda pick: f"{pick.randrange(2**64)}:{pick.randrange(2)}", "{}:1"),
}


def bytes_of(width):
    """Some look like a number with zeros in front."""
    form = f"{{:0>{2 * width}}}"
    return lambda pick: pick.choice([pick.randbytes(width).hex(), form.format(pick.randrange(1000))]), form


RECORDS.update({f"bytes{width}": bytes_of(width) for width in (16, 24, 32, 64)})


def mark_of(records):
    return hashlib.blake2b("\n".join(records).encode()).digest()


class Writer(threading.Thread):
    """Runs random commands on the file. Each is one frame, so the vector is no other between two of them. `marks` has
    that of the vector behind each command, and that of the one that runs."""

    def __init__(self, pick):
        super().__init__()
        self.pick, self.records, self.marks = pick, [], [mark_of([])]
        self.is_done, self.fault, self.has_live = threading.Event(), None, False

    def run(self):
        try:
            while not self.is_done.is_set():
                self.run_one()
        except Exception as fault:  # What ends the writer fails the test.
            self.fault = fault

    def run_one(self):
        # Seldom shorter: behind a cut a step that is done twice may be the same as one that is done once.
        self.pick.choices([self.append, self.set, self.resize, self.fold], [60, 50, 2, 20])[0]()

    def new(self, count):
        return [RECORDS[KIND][0](self.pick) for _ in range(count)]

    def command(self, after, *words, text=""):
        self.marks.append(mark_of(after))
        lines_of([PROGRAM, words[0], KIND, FILE, *words[1:]], input=text)
        self.records = after

    def append(self):
        new = self.new(self.pick.choice([1, 1, 1, 30, 100, 2000]))
        if len(self.records) + len(new) > LONGEST:
            self.resize()
        else:
            self.command(self.records + new, "append", text=" ".join(new) + "\n")

    def set(self):
        if self.records:
            start = self.pick.randrange(len(self.records))
            new = self.new(min(self.pick.choice([1, 1, 500]), len(self.records) - start))
            after = self.records[:start] + new + self.records[start + len(new):]
            self.has_live = True
            self.command(after, "set", str(start), f"--records={','.join(new)}")

    def resize(self):
        length = self.pick.choice([0, self.pick.randint(0, len(self.records)), len(self.records) + 10])
        if length < len(self.records) and self.has_live:
            self.fold()
        new = self.new(1)
        after = self.records[:length] + new * (length - len(self.records))
        self.command(after, "resize", str(length), f"--record={new[0]}")

    def fold(self):
        self.has_live = False
        self.command(self.records, "fold")


# ---- the ways in which a copy is kept

def die_with_this():
    ctypes.CDLL(None).prctl(1, signal.SIGKILL)


class Server:
    """What is killed and started again."""

    def __init__(self, words, log, **options):
        self.words, self.log, self.options = words, log, options

    def start(self):
        """Starts the server, also where what is left of a killed one doesn't let it start at once."""
        until = time.monotonic() + PATIENCE
        while True:
            with open(self.log, "a") as log:
                self.child = subprocess.Popen(self.words, stdin=subprocess.DEVNULL, stdout=log, stderr=log,
                                              preexec_fn=die_with_this, **self.options)
            while self.child.poll() is None:
                if self.is_up():
                    return
                time.sleep(0.02)
            if time.monotonic() > until:
                sys.exit(f"no server: {self.log}")
            time.sleep(0.2)

    def kill(self):
        self.child.kill()
        self.child.wait()


class Way:
    """How a copy is kept: the words of the scripts that keep it, one for each part, what these know of where it is, and how
    the copy of this name is read. `server` is what has it, if that isn't the script itself."""
    server, known = None, {}


class Apply(Way):
    known = {"CVEC": PROGRAM}

    def words(self, name):
        return [[f"{SCRIPTS}/apply", KIND, at(f"{name}.cv")]]

    def copy(self, name):
        return lines_of([PROGRAM, "list", KIND, at(f"{name}.cv"), "--wait"])


class Sqlite(Way):
    def words(self, name):
        return [[f"{SCRIPTS}/to_sqlite", at(f"{name}.db")]]

    def copy(self, name):
        return lines_of(["sqlite3", "-cmd", ".timeout 60000", at(f"{name}.db"), "select record from vector order by position"])


class Redis(Way):
    options = []

    def __init__(self):
        self.cli = ["redis-cli", "-s", at("s")]
        self.known = {"REDIS_CLI": shlex.join(self.cli)}
        self.server = Server(["redis-server", "--port", "0", "--unixsocket", at("s"), "--dir", FOLDER, "--save", "",
                              "--appendonly", "yes", "--appendfsync", "always", *self.options], at("redis.log"))
        self.server.is_up = self.is_up

    def is_up(self):
        return self.answer("PING") == b"PONG\n"

    def answer(self, *words):
        return subprocess.run([*self.cli, "-e", *words], capture_output=True).stdout

    def words(self, name):
        return [[f"{SCRIPTS}/to_redis", name]]

    def copy(self, name):
        return [it for it in lines_of([*self.cli, "-e", "LRANGE", f"{{{name}}}:records", "0", "-1"]) if it]


class Parts(Redis):
    """Three lists, each with a third of the records, and a place of its own, in a cluster of one node that has all slots."""
    count = 3

    def __init__(self):
        # The nodes of a cluster speak by TCP, even where there is one.
        with socket.socket() as free:
            free.bind(("127.0.0.1", 0))
            port = free.getsockname()[1]
        self.options = ["--bind", "127.0.0.1", "--cluster-enabled", "yes", "--cluster-port", str(port)]
        super().__init__()

    def is_up(self):
        # Refused once it has them.
        self.answer("CLUSTER", "ADDSLOTSRANGE", "0", "16383")
        return b"cluster_state:ok" in self.answer("CLUSTER", "INFO")

    def words(self, name):
        return [[f"{SCRIPTS}/to_redis", f"{name}{part}", f"{SCRIPTS}/part", str(part), str(self.count)] for part in range(self.count)]

    def copy(self, name):
        parts = [super(Parts, self).copy(f"{name}{part}") for part in range(self.count)]
        return [parts[position % self.count][position // self.count] for position in range(sum(map(len, parts)))]


class Postgres(Way):
    """PostgreSQL doesn't run as root: then it is the user postgres, who has the folder of its data."""

    @staticmethod
    def table(name):
        """The copy that is killed has its name, and all others have one of 62 bytes, which leaves `_place` one byte."""
        return name if name == NAME else f"{name:_<62}"

    def __init__(self):
        self.known = {"PGHOST": FOLDER, "PGUSER": "postgres", "PGDATABASE": "postgres"}
        folder = max(glob.glob("/usr/lib/postgresql/*/bin"), default=os.path.dirname(shutil.which("postgres") or ""))
        options = {"cwd": "/"}
        os.mkdir(at("data"), 0o700)
        if os.geteuid() == 0:
            options.update(user="postgres", group="postgres", extra_groups=[])
            shutil.chown(at("data"), "postgres", "postgres")
            shutil.chown(FOLDER, "postgres")
        lines_of([f"{folder}/initdb", "-D", at("data"), "-A", "trust", "-U", "postgres", "--no-sync"], **options)
        self.server = Server([f"{folder}/postgres", "-D", at("data"), "-k", FOLDER, "-c", "listen_addresses="],
                             at("postgres.log"), **options)
        self.server.is_up = lambda: subprocess.run(["psql", "-Xc", ""], env=self.all_known(), capture_output=True).returncode == 0

    def all_known(self):
        return {**os.environ, **self.known}

    def words(self, name):
        return [[f"{SCRIPTS}/to_postgres", self.table(name)]]

    def copy(self, name):
        return lines_of(["psql", "-XAtc", f"select record from {self.table(name)} order by position"], env=self.all_known())


WAYS = {"apply": Apply, "sqlite": Sqlite, "redis": Redis, "parts": Parts, "postgres": Postgres}


# ---- the scripts that keep it

class Keeper:
    """A script that keeps a copy, and its follower."""

    def __init__(self, number, words, known):
        self.words, self.known, self.number = words, {**os.environ, **known}, number
        self.groups, self.child = [], None

    def start(self, *options):
        # The follower's number is in a file of its own: it may outlive the script, or begin after that has ended.
        self.note = at(f"follower{self.number}.{len(self.groups)}")
        follow = ["sh", "-c", 'echo $$ >"$0"; exec "$@"', self.note, PROGRAM, "follow", KIND, FILE, "--events", *options]
        with open(at("keeper.log"), "a") as log:
            self.child = subprocess.Popen([*self.words, *follow], env=self.known, stdin=subprocess.DEVNULL, stdout=log,
                                          stderr=log, start_new_session=True)
        self.groups.append(self.child.pid)

    def kill(self):
        """Kills the script alone. What it has begun may go on."""
        self.child.kill()
        self.child.wait()

    def kill_all(self):
        os.killpg(self.child.pid, signal.SIGKILL)
        self.child.wait()

    def kill_follower(self):
        """Kills the follower, if there is one yet, and waits until the script has ended by that."""
        try:
            with open(self.note) as file:
                os.kill(int(file.read()), signal.SIGKILL)
        except (FileNotFoundError, ValueError, ProcessLookupError):
            self.kill()
            return
        self.has_stopped()

    def has_stopped(self):
        status = self.child.wait(PATIENCE)
        assert status == 1, f"the script ended with status {status} by what was killed"

    def catch_up(self):
        """Runs the script until it has kept all that there is. Another one that a kill has left may be in the way."""
        until = time.monotonic() + PATIENCE
        while time.monotonic() < until:
            self.start("--once")
            status = self.child.wait(PATIENCE)
            if status == 0:
                return
            assert status == 1, f"the script ended with status {status}"
        raise AssertionError("the script never came to an end")

    def end(self):
        for group in self.groups:
            try:
                os.killpg(group, signal.SIGKILL)
            except ProcessLookupError:
                pass
        if self.child:
            self.child.wait()


class Looker:
    """Looks at a copy: it must be the vector at a moment that isn't before the one of the look before."""

    def __init__(self, marks):
        self.marks, self.moment, self.advances = marks, 0, 0

    def look(self, copy):
        mark = mark_of(copy)
        for moment in range(self.moment, len(self.marks)):
            if self.marks[moment] == mark:
                self.advances += moment > self.moment
                self.moment = moment
                return
        known = "as it was at an earlier moment" if mark in self.marks else "as the vector never was"
        raise AssertionError(f"the copy of {len(copy)} records is {known}")


def kill_one(pick, way, keepers):
    """Kills something, and leaves no script running that knows of it."""
    victim = pick.choice(["script", "all", "follower"] + ["server"] * (way.server is not None))
    if victim == "server":
        way.server.kill()
        for keeper in keepers:
            keeper.has_stopped()
        way.server.start()
        return
    for keeper in keepers:
        {"script": keeper.kill, "all": keeper.kill_all, "follower": keeper.kill_follower}[victim]()


def ship(pick, way, keepers, writer, looker, pace):
    """`pace` is the time in which scripts begin and do a step, on this machine as it is."""
    for number in range(KILLS):
        for keeper in keepers:
            # A step is what some commands have done, or one.
            keeper.start(f"--poll={pick.choice([1, 20, 100])}")
        time.sleep(pick.uniform(0, 4 * pace))
        kill_one(pick, way, keepers)
        # What kills have kept from being done would be more and more.
        if isinstance(way, Apply) or number % 4 == 3:
            for keeper in keepers:
                keeper.catch_up()
        if not isinstance(way, Parts):
            looker.look(way.copy(NAME))
    assert isinstance(way, Parts) or looker.advances > 0, "no kill came after a step"
    writer.is_done.set()
    writer.join()
    if writer.fault:
        raise writer.fault
    for keeper in keepers:
        keeper.catch_up()
    assert lines_of([PROGRAM, "list", KIND, FILE]) == writer.records, "the file isn't as the list"
    assert way.copy(NAME) == writer.records, "the copy isn't as the list"


def one_of_two_goes_on(way):
    """While a script has begun, another one keeps a step of the same copy. Then the first keeps none."""
    words, known = way.words("other")[0], {**os.environ, **way.known}
    other = shlex.join([*words, "printf", "+ 7\\n+ 8\\n. 1:2\\n%.0s"])
    late = ["sh", "-c", f"{other}; printf '< 0\\n+ 9\\n. 2:3\\n'"]
    done = subprocess.run([*words, *late], env=known, timeout=PATIENCE, capture_output=True, text=True)
    assert done.returncode == 1 and "another program" in done.stderr, f"status {done.returncode}, {done.stderr}"
    assert way.copy("other") == ["7", "8"], "a step was done to what another script has gone on with"


# Steps of lines in any order, as text with `r` behind the digit of each record, and what the vector is then.
STEPS = [
    ("+ 5r,+ 6r,+ 7r,= 1 9r,+ 8r,< 3,+ 4r,= 3 2r,. 1:1", "5r 9r 7r 2r"),
    ("= 3 1r,= 0 3r,< 2,< 1,+ 1r,+ 6r,= 2 0r,. 1:2", "3r 1r 0r"),
    (". 1:3", "3r 1r 0r"),
    ("= 2 7r,< 0,. 1:4", ""),
    ("+ 7r,< 0,+ 6r,+ 4r,= 0 2r,< 1,+ 8r,. 1:5", "2r 8r"),
]


def any_order_is_kept(way):
    """`follow` gives the lines of a step in one order. Scripts take them in any in which they make the vector."""
    def records_in(text):
        return re.sub("([0-9])r", lambda found: RECORDS[KIND][1].format(found[1]), text)

    for lines, wanted in STEPS:
        text = "".join(f"{line}\\n" for line in records_in(lines).split(","))
        for words in way.words("steps"):
            lines_of([*words, "printf", text + "%.0s"], env={**os.environ, **way.known})
        assert way.copy("steps") == records_in(wanted).split(), f"the copy isn't as behind {lines}"


def one_step_has_all(way, keepers, writer):
    """What all kinds of commands have done, one after the other, is one step. Answers how long it took to keep that."""
    for number in range(40):
        writer.resize() if number in (10, 20, 30) else writer.run_one()
    begun = time.monotonic()
    for keeper in keepers:
        keeper.catch_up()
    took = time.monotonic() - begun
    assert way.copy(NAME) == writer.records, "the copy isn't as the list after the first step"
    return took


def main():
    pick = random.Random(SEED)
    lines_of([PROGRAM, "create", KIND, FILE])
    way, writer = WAYS[WAY](), Writer(random.Random(SEED + 1))
    keepers = [Keeper(number, words, way.known) for number, words in enumerate(way.words(NAME))]
    try:
        if way.server:
            way.server.start()
        if WAY not in ("apply", "parts"):
            one_of_two_goes_on(way)
        any_order_is_kept(way)
        pace = one_step_has_all(way, keepers, writer)
        writer.start()
        ship(pick, way, keepers, writer, Looker(writer.marks), pace)
    finally:
        writer.is_done.set()
        for keeper in keepers:
            keeper.end()
        if way.server:
            way.server.kill()
    print(f"{WAY}: {KILLS} kills, {len(writer.marks)} commands, {KIND}")


for number in signal.SIGTERM, signal.SIGHUP:
    signal.signal(number, lambda *_: sys.exit(1))
main()
