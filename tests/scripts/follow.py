#!/usr/bin/env python3
"""Answers scripts from docs/file/format.md and counts of device calls, with plain lists and no program.

follow.py FILE..: prints each script's lines with the answers that follow, and on standard error each line whose answer
in the file is another. Of lines that it doesn't know it keeps the answer. Records of u64 alone."""
import sys

TYPE_LIMIT = {1: 1_048_576, 2: 16_777_216}
RUN_LIMIT = 4096
LIST_LIMIT = 40


def u(number, size):
    return number.to_bytes(size, "little")


def listed(records):
    text = " ".join(map(str, records)) or "empty"
    if len(records) <= LIST_LIMIT:
        return text
    hashed = 0xcbf29ce484222325
    for byte in text.encode():
        hashed = (hashed ^ byte) * 0x100000001b3 % 2**64
    return f"{len(records)} records, hash {hashed}"


STEPS = ("create open share put look view settled take raise close gather change changes resize clear list fold log home"
         .split())


class Refused(Exception):
    pass


class File:
    """A file's frames, and the places of its records."""

    def __init__(self):
        self.version, self.bytes, self.homes, self.records = 0, b"", [], []
        self.live, self.changes, self.folded, self.groups = [], 0, 0, 0

    def make(self, version):
        self.version = version
        self.bytes = b"\1CVECSEG" + u(version, 1) + u(8, 2) + b"\0"

    def frame(self, kind, payload):
        self.bytes = self.bytes[:-1] + b"\1" + u(kind, 1) + u(len(payload), 4) + payload + b"\0"

    def group(self, growths):
        place = len(self.bytes) + 5 + 4 + 4 * len(growths)
        records = [r for g in growths for r in g]
        self.frame(1, u(len(growths), 4) + b"".join(u(len(g), 4) for g in growths) + b"".join(u(r, 8) for r in records))
        self.homes += [(place + 8 * k, self.groups) for k in range(len(records))]
        self.groups += 1
        self.records += records

    def change(self, runs):
        body = b"".join(u(r, 8) for _, records in runs for r in records)
        if self.version == 1:
            self.frame(2, u(runs[0][0], 8) + body)
        else:
            self.frame(2, u(len(runs), 4) + b"".join(u(s, 8) + u(len(r), 4) for s, r in runs) + body)
        self.changes += 1
        for start, records in runs:
            self.live.append((self.changes, start, len(records)))
            self.records[start:start + len(records)] = records

    def shrink(self, n):
        self.frame(3, u(n, 8))
        del self.records[n:], self.homes[n:]

    def fold_frame(self, count):
        self.frame(4, u(count, 8))
        self.folded = count
        self.live = [run for run in self.live if run[0] > count]

    def home_writes(self):
        """Positions that live changes cover, cut where a group ends, where places don't follow, and behind 4,096."""
        covered = sorted({p for _, s, n in self.live for p in range(s, s + n)})
        writes = []
        for p in covered:
            last = writes[-1] if writes else None
            if (last and last[-1] + 1 == p and len(last) < RUN_LIMIT and self.homes[p][1] == self.homes[last[-1]][1]
                    and self.homes[p][0] == self.homes[last[-1]][0] + 8):
                last.append(p)
            else:
                writes.append([p])
        return writes

    def write_home(self, positions, values):
        for p in positions:
            at = self.homes[p][0]
            self.bytes = self.bytes[:at] + u(values[p], 8) + self.bytes[at + 8:]


class Run:
    """The steps since the last crash. `sets[k]` has the lists that images may hold behind k calls."""

    def __init__(self, file=None, lists=None):
        self.file, self.sets, self.writes = file or File(), [lists or {"unborn"}], []
        self.state, self.fold, self.job, self.phase = "shut", None, None, None

    def call(self, lists=None, write=False):
        self.writes.append(write)
        self.sets.append(set(lists or self.sets[-1]))

    def after(self):
        return {listed(self.file.records)}

    def commit_calls(self, k, before, after):
        lists = before | after if k == 3 else after if k == 4 else before
        self.call(lists, write=k in (1, 3))

    def commit(self, make):
        before = self.sets[-1]
        make()
        for k in (1, 2, 3, 4):
            self.commit_calls(k, before, self.after())

    def create(self, version):
        if self.file.version:
            raise Refused("exists")
        self.file.make(version)
        for k in range(1, 9):
            lists = {"unborn", "empty"} if k == 7 else {"empty"} if k == 8 else {"unborn"}
            self.call(lists, write=k in (3, 5, 7))
        self.state = "exclusive"
        return "ok"

    def open(self):
        for _ in range(3):
            self.call()
        if not self.file.version:
            raise Refused("unborn")
        self.state = "exclusive"
        return f"size {len(self.file.records)}"

    def ready(self):
        if self.job:
            raise Refused("busy")

    def limit(self, size):
        if size > TYPE_LIMIT[self.file.version]:
            raise Refused("too large")

    def change(self, runs, several=False):
        self.ready()
        if several and self.file.version == 1 and len(runs) != 1:
            raise Refused("old format")
        end = 0
        for start, records in runs:
            if start < end:
                raise Refused("runs")
            end = start + len(records)
        if end > len(self.file.records):
            raise Refused("out of range")
        records = sum(len(r) for _, r in runs) * 8
        self.limit(8 + records if self.file.version == 1 else 4 + 12 * len(runs) + records)
        self.commit(lambda: self.file.change(runs))
        return "ok"

    def resize(self, n, value):
        size = len(self.file.records)
        if n == size:
            return "ok"
        self.ready()
        if n > 2**32:
            raise Refused("out of range")
        if n > size:
            self.limit(8 + 8 * (n - size))
            self.commit(lambda: self.file.group([[value] * (n - size)]))
        else:
            if self.file.live:
                raise Refused("unfolded")
            self.commit(lambda: self.file.shrink(n))
        return "ok"

    def begin_fold(self):
        if self.fold:
            raise Refused("busy")
        if not self.file.live:
            return "nothing"
        self.fold = {"writes": self.file.home_writes(), "count": self.file.changes, "values": list(self.file.records),
                     "stage": "home"}
        return "begun"

    def home(self):
        fold = self.fold
        if not fold:
            return "idle"
        if fold["writes"]:
            self.file.write_home(fold["writes"].pop(0), fold["values"])
            self.call(write=True)
            return "step"
        if fold["stage"] == "home":
            fold["stage"] = "synced"
            # This sync is that of the whole file, with a gate that a commit has opened.
            gated = self.job and self.job["k"] == 3
            self.call(self.job["after"] if gated else None)
            return "step"
        if self.job or fold["stage"] == "filed":
            return "waiting"
        fold["stage"] = "filed"
        self.job = {"k": 0, "make": self.end_fold}
        return "filed"

    def end_fold(self):
        self.file.fold_frame(self.fold["count"])

    def log(self):
        job = self.job
        if not job:
            return "idle"
        job["k"] += 1
        if job["k"] == 1:
            job["make"]()
            job["after"] = self.after()
        self.commit_calls(job["k"], self.sets[-1], job["after"])
        if job["k"] < 4:
            return "step"
        if job["make"] == self.end_fold:
            self.fold = None
        else:
            self.phase["settled"] += job["count"]
        self.job = None
        return "done"

    def share(self, room, seats):
        self.ready()
        if not 1 <= room <= 1_048_568 or not 1 <= seats <= 64:
            raise Refused("too large")
        self.phase = {"growths": [], "room": room, "seats": [0] * seats, "found": 0, "taken": 0, "settled": 0, "mark": 0,
                      "closed": False, "start": len(self.file.records)}
        self.state = "growth"
        return "ok"

    def size_of(self, growths):
        return self.phase["start"] + sum(map(len, self.phase["growths"][:growths]))

    def put(self, seat, records):
        phase = self.phase
        if phase["closed"]:
            raise Refused("closed")
        number = len(phase["growths"])
        if number >= phase["room"]:
            raise Refused("full")
        start = self.size_of(number)
        phase["growths"].append(records)
        phase["seats"][seat] = number + 1
        return f"growth {number} start {start} len {len(records)}"

    def look(self, seat):
        if seat == "f":
            self.phase["found"] = len(self.phase["growths"])
        else:
            self.phase["seats"][int(seat)] = len(self.phase["growths"])
        return f"size {self.size_of(len(self.phase['growths']))}"

    def take(self):
        self.ready()
        phase = self.phase
        count, size = 0, 4
        for growth in phase["growths"][phase["taken"]:phase["found"]]:
            if size + 4 + 8 * len(growth) > TYPE_LIMIT[self.file.version]:
                break
            count, size = count + 1, size + 4 + 8 * len(growth)
        if count:
            growths = phase["growths"][phase["taken"]:phase["taken"] + count]
            phase["taken"] += count
            self.job = {"k": 0, "make": lambda: self.file.group(growths), "count": count}
        return f"took {count}"

    def raise_mark(self):
        self.phase["mark"] = self.phase["settled"]
        return f"raised {self.phase['mark']}"

    def gather(self):
        if self.phase["settled"] < len(self.phase["growths"]):
            raise Refused(f"unsettled {self.phase['settled']}")
        self.state = "exclusive"
        return f"size {len(self.file.records)}"

    def close(self):
        self.phase["closed"] = True
        return "ok"

    def step(self, words):
        verb, rest = words[0], words[1:]
        wanted = {"create": "shut", "open": "shut", "share": "exclusive", "put": "growth", "look": "growth",
                  "view": "growth", "settled": "growth", "take": "growth", "raise": "growth", "close": "growth",
                  "gather": "growth", "change": "exclusive", "changes": "exclusive", "resize": "exclusive",
                  "clear": "exclusive", "list": "exclusive"}
        state = wanted.get(verb)
        if self.state != state if state else self.state == "shut":
            raise Refused("wrong phase")
        if verb in ("put", "look", "view", "settled") and rest[0] != "f" and int(rest[0]) >= len(self.phase["seats"]):
            raise Refused("wrong phase")
        if verb == "changes":
            runs = [[int(n) for n in part.split()] for part in " ".join(rest).split("|")]
            return self.change([(run[0], run[1:]) for run in runs], True)
        numbers = [int(n) if n.isdigit() else n for n in rest]
        return {"create": lambda: self.create(2 if numbers else 1), "open": self.open,
                "share": lambda: self.share(*numbers), "put": lambda: self.put(numbers[0], numbers[1:]),
                "look": lambda: self.look(rest[0]), "take": self.take, "raise": self.raise_mark,
                "view": lambda: listed(self.viewed(numbers[0])),
                "settled": lambda: f"settled {self.phase['mark']} running", "close": self.close, "gather": self.gather,
                "change": lambda: self.change([(numbers[0], numbers[1:])]),
                "resize": lambda: self.resize(*numbers), "clear": lambda: self.resize(0, 0),
                "list": lambda: " ".join(map(str, self.file.records)) or "empty", "fold": self.begin_fold,
                "log": self.log, "home": self.home}[verb]()

    def viewed(self, seat):
        phase = self.phase
        base = self.file.records[:phase["start"]]
        return base + [r for g in phase["growths"][:phase["seats"][seat]] for r in g]

    def answer(self, step):
        try:
            return self.step(step.split())
        except Refused as refused:
            return f"refused {refused}"

    def stopped(self, calls):
        return " | ".join(sorted(self.sets[min(calls, len(self.sets) - 1)], key=lambda s: s.encode()))

    def failed(self, calls, arriving):
        """Behind a call that failed once nothing is written: of a write its first bytes may be pending."""
        if calls >= len(self.writes):
            return self.stopped(calls)
        before, behind = self.sets[calls], self.sets[calls + 1]
        if self.writes[calls] and arriving:
            before = before | behind
        return " | ".join(sorted(before, key=lambda s: s.encode()))


def tally(texts, between):
    counts = {}
    for text in texts:
        counts[text] = counts.get(text, 0) + 1
    return between.join(t if n == 1 else f"{n} x {t}" for t, n in counts.items())


def one(texts):
    return texts[0] if len(set(texts)) == 1 else tally(texts, "; ")


def grown(step, k):
    while "{" in step:
        before, rest = step.split("{", 1)
        number, after = rest.split("}", 1)
        if "*" in number:
            record, count = number.split("*")
            text = " ".join([record] * int(count))
        else:
            first, by = number.split("+")
            text = str(int(first) + int(by) * k)
        step = before + text + after
    return step


def span(word):
    first, _, last = word.partition("-")
    return range(int(first), int(last or first) + 1)


def answered(run, step, old):
    words = step.split()
    verb = words[0] if words else ""
    if verb == "type":
        return None, "ok"
    if step == "begin":
        return Run(), "ok"
    if verb == "calls":
        return run, str(len(run.writes))
    if verb == "file":
        return run, run.file.bytes.hex()
    if verb == "images":
        return run, run.stopped(len(run.writes))
    if verb == "repeat":
        answers = []
        for k in range(int(words[1])):
            for part in " ".join(words[2:]).split(";"):
                answers.append(run.answer(grown(part.strip(), k)))
        return run, tally(answers, " | ")
    if verb == "stop":
        return run, one([run.stopped(k) for k in span(words[1])])
    if verb == "fail":
        arriving = 1 if words[1] == "all" else int(words[1])
        return run, one([run.failed(k, arriving) for k in span(words[2])])
    if step == "crash old":
        if run.job or run.fold:
            return None, old
        file = run.file
        return Run(file, {listed(file.records)} if file.version else None), f"crashed {len(file.bytes)}"
    if verb in ("begin", "told", "upgrade", "crash"):
        return None, old
    if verb not in STEPS or words == ["resize"]:
        return run, old
    return run, run.answer(grown(step, 0))


def main():
    differ = 0
    for path in sys.argv[1:]:
        run = Run()
        for number, line in enumerate(open(path).read().splitlines(), 1):
            step, _, old = line.partition(" -> ")
            if not step or line.startswith("#"):
                print(line)
                continue
            answer = old
            if run or step.startswith("begin"):
                run, answer = answered(run, step.strip(), old)
                if old and answer != old:
                    differ += 1
                    print(f"{path}:{number}: {step} -> {answer}", file=sys.stderr)
            print(f"{step} -> {answer}")
    sys.exit(differ > 0)


if __name__ == "__main__":
    main()
