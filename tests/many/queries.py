#!/usr/bin/env python3
"""Tests of bindings/python/cvec/dask.py by a cluster of two hosts, over files that tests/many/pen.py writes: queries.py FOLDER [NAME ..]

Expected answers are those of the writers' own lists. The last line is 'N passed, N failed'."""
import functools
import os
import shutil
import signal
import socket
import struct
import sys
import threading
import time

TOP = os.path.join(os.path.dirname(os.path.abspath(__file__)), "..", "..")
sys.path.insert(0, os.path.join(TOP, "bindings", "python"))
import dask
import numpy

import cvec
from cases import Skipped, main, raises
from cluster import Cluster, wait_until
from cvec.dask import Lost, Missing, Moved, WrongMachine, WrongVersion
from pen import Pen, numbers

FOLDER = os.path.abspath(sys.argv[1])
PATIENCE = 3
# What a call may take beyond `patience`, of which the page says 2 seconds. The rest is for a machine with other work.
BOUND = PATIENCE + 2 + float(os.environ.get("MANY_SLACK", "6"))
CLUSTER = client = None


def path_of(number, name="a.cv"):
    return os.path.join(CLUSTER.folders[number], name)


def fresh():
    """No file is left of the test before. The folders stay, as workers are in them."""
    for folder in CLUSTER.folders:
        for name in os.listdir(folder):
            remove(os.path.join(folder, name))


def remove(path):
    if os.path.isdir(path):
        os.rmdir(path)
    elif os.path.exists(path):
        os.unlink(path)


def grown(number, records, name="a.cv", each=100, **options):
    pen = Pen(path_of(number, name), **options)
    for first in range(0, len(records), each):
        pen.grow(records[first:first + each])
    return pen


def found(kind="u64", pattern="*.cv", **options):
    return cvec.dask.find(client, pattern, kind, CLUSTER.addresses, **options)


def size_and_sum(block, first):
    return len(block), int(block.sum())


def added(parts):
    return tuple(map(sum, zip(*parts))) if parts else (0, 0)


def of_list(pens):
    """The same, of the writers' lists."""
    values = [value for pen in pens for value, in map(struct.Struct("<Q").unpack, pen.records)]
    return len(values), sum(values)


class Door:
    """Where a function that runs on a worker waits, once or each time, until the test has done something."""

    def __init__(self, name):
        self.folder = os.path.join(FOLDER, f"door-{name}")
        shutil.rmtree(self.folder, ignore_errors=True)
        os.makedirs(self.folder)

    def knock(self):
        """On a worker: leaves a mark, and waits for leave to go on."""
        if os.path.exists(os.path.join(self.folder, "open")):
            return
        number = len(os.listdir(self.folder))
        with open(os.path.join(self.folder, f"knock-{number}-{os.getpid()}"), "w"):
            pass
        until = time.monotonic() + 60
        while not os.path.exists(os.path.join(self.folder, "open")) and time.monotonic() < until:
            time.sleep(0.01)

    def has_knocked(self):
        return any(it.startswith("knock") for it in os.listdir(self.folder))

    def open(self):
        with open(os.path.join(self.folder, "open"), "w"):
            pass


def waiting_at(door, each, first_alone, block, first):
    """Where `first_alone`, each file's first block alone waits."""
    if first == 0 or not first_alone:
        door.knock()
    return each(block, first)


def meanwhile(door, do, call):
    """The answer of this call, in whose midst something is done."""
    fault = []

    def run():
        try:
            wait_until(door.has_knocked, "the query began")
            do()
        except BaseException as it:
            fault.append(it)
        finally:
            door.open()
    thread = threading.Thread(target=run)
    thread.start()
    try:
        return call()
    finally:
        thread.join()
        if fault:
            raise fault[0]


# ---- answers

def answers_are_those_of_the_lists():
    fresh()
    lists = [[(7919 * it + seed) % 1009 for it in range(1000 + 500 * seed)] for seed in range(4)]
    for seed, values in enumerate(lists):
        grown(seed % 2, numbers(values), f"{seed}.cv", 1 + 37 * seed)
    in_order = [*lists[0], *lists[2], *lists[1], *lists[3]]
    for chunk in 100, 333, None:
        shards = found(chunk=chunk)
        assert [str(it) for it in shards.names] == [f"{CLUSTER.addresses[it % 2]}:{it}.cv" for it in (0, 2, 1, 3)]
        assert len(shards) == len(in_order) and [row[1] for row in shards.table()] == [1000, 2000, 1500, 2500]
        assert shards.count(50) == in_order.count(50) and shards.count(lambda block: block > 1000) == sum(it > 1000 for it in in_order)
        for value in 7, 1008:
            first = next((name, lists[seed].index(value)) for name, seed in zip(shards.names, (0, 2, 1, 3)) if value in lists[seed])
            assert shards.find(value) == first
        assert shards.find(5000) is None and shards.count(5000) == 0
        assert shards.top(5).tolist() == sorted(in_order)[::-1][:5]
        counts, edges = shards.histogram(4, (0, 1009))
        wanted = [sum(edges[k] <= it < edges[k + 1] or k == 3 and it == edges[4] for it in in_order) for k in range(4)]
        assert counts.tolist() == wanted and len(edges) == 5
        joined = shards.reduce(lambda block, first: block.tolist(), lambda parts: sum(parts, []))
        assert joined == in_order, "another order"
        by_name = shards.reduce_each(lambda block, first: [first], lambda parts: sum(parts, []))
        assert all(it == sorted(it) and it[0] == 0 for it in by_name.values())
        assert by_name.keys() == set(shards.names)


def an_array_is_the_cuts_one_behind_the_other():
    fresh()
    pens = [grown(number, numbers(range(number, 1000 + number))) for number in (0, 1)]
    fuse = dask.config.get("optimization.fuse.active", None)
    shards = found()
    array = shards.array(chunk=130)
    wanted = [*range(1000), *range(1, 1001)]
    pens[0].grow(numbers([5] * 10))
    assert shards.compute(array).tolist() == wanted
    assert shards.compute((array % 7 == 3).sum()) == sum(it % 7 == 3 for it in wanted)
    assert shards.compute(array[990:1010]).tolist() == wanted[990:1010]
    assert dask.config.get("optimization.fuse.active", None) == fuse, "Dask's configuration is another"
    pens[1].change((5, numbers([7])))
    raises(Moved, lambda: shards.compute(array.sum()))
    assert shards.compute(array[:1000]).tolist() == wanted[:1000], "chunks of another file"


def vectors_without_a_record_are_answered():
    fresh()
    pens = [Pen(path_of(number)) for number in (0, 1)]
    shards = found()
    assert (len(shards), shards.count(5), shards.find(5), shards.top(3).tolist()) == (0, 0, None, [])
    assert shards.reduce(size_and_sum, added) == (0, 0) and shards.histogram(3, (0, 9))[0].tolist() == [0, 0, 0]
    assert shards.compute(shards.array()).tolist() == []
    standing = shards.standing(size_and_sum, added)
    assert standing.value() == (0, 0)
    pens[1].grow(numbers([5]))
    assert standing.value() == (1, 5) and standing.read == 1


def rows_are_counted_and_found():
    fresh()
    dtype = [("time", "<u8"), ("price", "<f8")]
    rows = numpy.zeros(500, dtype)
    rows["time"], rows["price"] = range(500), numpy.arange(500) % 10 * 0.5
    data = rows.tobytes()
    for number in 0, 1:
        grown(number, [data[it:it + 16] for it in range(0, len(data), 16)], width=16)
    shards = found(dtype, chunk=77)
    assert len(shards) == 1000 and shards.count(lambda block: block["price"] == 4.5) == 100
    assert shards.count(rows[7]) == 2 and shards.find(rows[7]) == (shards.names[0], 7)
    assert shards.top(2, of=lambda block: block["price"]).tolist() == [4.5, 4.5]
    raises(ValueError, lambda: shards.count((7, 3.5)))


def records_are_compared_by_their_bits():
    for kind, form, values, one, none in [
            ("f64", "<d", [0.0, -0.0, float("nan"), 1.5, -0.0], -0.0, "1.5"), ("f64", "<d", [float("nan"), 2.0], float("nan"), None),
            ("i64", "<q", [-1, 2**63 - 1], 2**63 - 1, 2**63), ("pair", "<Qq", [(1, -1), (1, 1)], (1, -1), (1,)),
            ("flagged", "<Q?", [(5, True), (5, False)], (5, False), 5), ("bytes16", "16s", [b"a" * 16, b"b" * 16], b"b" * 16, b"b")]:
        fresh()
        data = [struct.pack(form, *(it if isinstance(it, tuple) else (it,))) for it in values]
        for number in 0, 1:
            grown(number, data, width=struct.calcsize(form))
        shards, wanted = found(kind), data.index(struct.pack(form, *(one if isinstance(one, tuple) else (one,))))
        assert shards.count(one) == 2 * data.count(data[wanted]), f"{kind} {one}"
        assert shards.find(one) == (shards.names[0], wanted), f"{kind} {one}"
        for call in shards.count, shards.find:
            raises(ValueError, lambda: call(none))


# ---- what happens to a file in a query

def in_a_query(name, do, pens, again):
    """What the query answers is that of the list before what is done, or of the list after it; and whether a file was read again."""
    shards, door, before = found(chunk=700), Door(name), of_list(pens)
    each = functools.partial(waiting_at, door, size_and_sum, True)
    got = meanwhile(door, do, lambda: shards.reduce(each, added))
    wanted = of_list(pens) if again else before
    assert got == wanted, f"{name}: {got}, not {wanted}"
    assert [it.path for it in shards.reread] == (["a.cv"] if again else []), f"{name}: read again {shards.reread}"


def a_file_that_is_grown_folded_or_cut_in_a_query_is_as_it_was():
    fresh()
    pens = [grown(number, numbers(range(2000))) for number in (0, 1)]
    in_a_query("grown", lambda: pens[0].grow(numbers(range(50))), pens, again=False)
    pens[1].change((1500, numbers([7] * 50)))
    in_a_query("folded", lambda: pens[1].fold(), pens, again=False)
    in_a_query("cut", lambda: (pens[1].shrink(1000), pens[1].grow(numbers([5] * 100))), pens, again=False)


def a_file_that_is_changed_or_replaced_in_a_query_is_read_again():
    fresh()
    pens = [grown(number, numbers(range(2000))) for number in (0, 1)]
    in_a_query("changed", lambda: pens[0].change((1999, numbers([7]))), pens, again=True)
    in_a_query("changed_and_folded", lambda: (pens[0].change((1000, numbers([9] * 90))), pens[0].fold()), pens, again=True)
    in_a_query("compacted", lambda: pens.__setitem__(1, pens[1].compact()), pens, again=True)
    in_a_query("emptied", lambda: (pens[1].empty(), pens[1].grow(numbers([3] * 500))), pens, again=True)
    in_a_query("emptied_of_all", pens[0].empty, pens, again=True)


def a_file_that_is_changed_at_each_try_ends_a_query():
    fresh()
    pen, goes_on = grown(0, numbers(range(2000))), True
    Pen(path_of(1))
    shards, tries = found(chunk=700), Door("tries")

    def change():
        done = 0
        while goes_on:
            if len(os.listdir(tries.folder)) > 2 * done:
                pen.change((1999, numbers([done])))
                done += 1
                with open(os.path.join(tries.folder, f"done-{done}"), "w"):
                    pass
            time.sleep(0.005)
    thread = threading.Thread(target=change)
    thread.start()
    try:
        raises(Moved, lambda: shards.reduce(functools.partial(_asks_for_a_change, tries.folder), added))
    finally:
        goes_on = False
        thread.join()
    assert pen.changes == 9, f"{pen.changes} tries, not one and 8 more"


def _asks_for_a_change(folder, block, first):
    if first == 0:
        number = len(os.listdir(folder))
        with open(os.path.join(folder, f"asked-{number}"), "w"):
            pass
        until = time.monotonic() + 30
        while len(os.listdir(folder)) < number + 2 and time.monotonic() < until:
            time.sleep(0.005)
    return size_and_sum(block, first)


# ---- standing answers

def a_standing_answer_reads_new_records_alone():
    fresh()
    pens = [grown(number, numbers(range(1000))) for number in (0, 1)]
    shards = found(chunk=300)
    standing, whole = shards.standing(size_and_sum, added), lambda: sum(len(it.records) for it in pens)

    def reads(count, what):
        before = standing.read
        value = standing.value()
        assert value == of_list(pens), f"{what}: {value}, not {of_list(pens)}"
        assert standing.read - before == count, f"{what}: {standing.read - before} records read, not {count}"
    reads(2000, "all")
    reads(0, "nothing new")
    pens[0].grow(numbers(range(100)))
    reads(100, "some more")
    pens[1].change((5, numbers([7, 7])))
    reads(1000, "changed")
    shards.refresh()
    pens[1].fold()
    reads(0, "folded")
    pens[1].shrink(500)
    pens[1].grow(numbers([1] * 700))
    shards.refresh()
    reads(1200, "cut and grown")
    pens[0] = pens[0].compact()
    reads(1100, "compacted")
    pens[0].empty()
    pens[0].grow(numbers([8] * 50))
    reads(50, "emptied and filled")
    pens[0].empty()
    shards.refresh()
    reads(0, "emptied")
    assert standing.read == 2000 + 100 + 1000 + 1200 + 1100 + 50


def a_file_that_was_filled_again_to_the_same_shape_is_read_again():
    fresh()
    pens = [grown(number, numbers(range(1000))) for number in (0, 1)]
    shards = found()
    standing = shards.standing(size_and_sum, added)
    assert standing.value() == of_list(pens)
    pens[0].empty()
    for first in range(0, 1000, 100):
        pens[0].grow(numbers([9] * 100))
    assert standing.value() == of_list(pens) and standing.read == 3000


def a_standing_answer_is_right_where_a_file_is_changed_in_its_midst():
    """Among the records that are new, which is why all of it is read again; or it is emptied, and nothing is left to be read."""
    for name in "change", "empty":
        fresh()
        pens = [grown(number, numbers(range(1000))) for number in (0, 1)]
        shards, door = found(chunk=300), Door(name)
        standing = shards.standing(functools.partial(waiting_at, door, size_and_sum, False), added)
        door.open()
        assert standing.value() == of_list(pens)
        os.unlink(os.path.join(door.folder, "open"))
        pens[0].grow(numbers([5] * 600))
        do = {"change": lambda: pens[0].change((1599, numbers([7]))), "empty": pens[0].empty}[name]
        assert meanwhile(door, do, standing.value) == of_list(pens), name
        assert standing.value() == of_list(pens) and len(shards) == len(pens[0].records) + 1000, name


# ---- files that come and go

def new_files_join_and_others_are_dropped():
    fresh()
    pens = [grown(number, numbers(range(100))) for number in (0, 1)]
    shards = found()
    standing = shards.standing(size_and_sum, added)
    assert standing.value() == of_list(pens)
    pens.append(grown(1, numbers(range(500)), "b.cv"))
    assert standing.value() == of_list(pens) and standing.read == 700
    assert [it.path for it in shards.names] == ["a.cv", "a.cv", "b.cv"]
    shards.drop([str(shards.names[0])])
    assert shards.refresh().count(lambda block: block >= 0) == 600 and standing.value() == of_list(pens[1:])
    shards.add([f"{CLUSTER.addresses[0]}:a.cv"])
    assert standing.value() == of_list(pens)
    listed = cvec.dask.from_files(client, [f"{it}:a.cv" for it in CLUSTER.addresses], "u64")
    assert len(listed) == 200
    for name in "a.cv", ":a.cv", "host:", "[::1]a.cv":
        raises(ValueError, lambda: cvec.dask.from_files(client, [name], "u64"))


def what_takes_a_files_place():
    """What each thing does to the path, and what is said of it."""
    yield "gone", os.unlink, "No such file"
    yield "a folder", lambda path: (os.unlink(path), os.mkdir(path)), "Is a directory"
    yield "of another width", lambda path: Pen(path, 1, 16), "width 16 at 9"
    yield "unborn", lambda path: open(path, "w").close(), "unborn at 0"
    yield "damaged", lambda path: os.truncate(path, 900), "at "


def a_file_that_is_gone_is_missing_or_skipped():
    for what, do, why in what_takes_a_files_place():
        fresh()
        pens = [grown(number, numbers(range(300))) for number in (0, 1)]
        shards = found(chunk=130)
        standing = shards.standing(size_and_sum, added)
        assert standing.value() == of_list(pens)
        do(path_of(0))
        for call in shards.refresh, standing.value, lambda: shards.count(5), shards.array:
            fault = raises(Missing, call)
            assert why in str(fault) and "a.cv" in str(fault), f"{what}: {fault}"
        shards.on_missing = "skip"
        left = of_list(pens[1:])
        shards.refresh()
        assert shards.reduce(size_and_sum, added) == standing.value() == left and len(shards) == left[0], what
        assert shards.compute(shards.array().sum()) == left[1] and shards.count(lambda block: block >= 0) == left[0], what
        assert [it.host for it in shards.faults] == CLUSTER.addresses[:1] and not shards.missing, what
        remove(path_of(0))
        pens[0] = grown(0, numbers(range(400)))
        shards.refresh()
        assert standing.value() == of_list(pens) and not shards.faults, what


def a_file_that_goes_in_a_query_is_missing_or_skipped():
    fresh()
    pens = [grown(number, numbers(range(2000))) for number in (0, 1)]
    for mode in "skip", "raise":
        shards, door = found(chunk=700, missing=mode), Door(mode)
        each = functools.partial(waiting_at, door, size_and_sum, True)
        call = lambda: meanwhile(door, lambda: os.unlink(path_of(0)), lambda: shards.reduce(each, added))
        if mode == "raise":
            raises(Missing, call)
        else:
            assert call() == of_list(pens[1:]) and list(shards.faults) == shards.names[:1]
        pens[0] = grown(0, numbers(range(2000)))


def a_record_that_is_none_is_a_fault_of_its_file():
    fresh()
    grown(0, [struct.pack("<QB", 5, 2)], width=9)
    grown(1, [struct.pack("<QB", 5, 1)], width=9)
    assert "bad record at 25" in str(raises(Missing, lambda: found("flagged").count((5, True))))
    shards = found("flagged", missing="skip")
    assert shards.count((5, True)) == 1 and [it.host for it in shards.faults] == CLUSTER.addresses[:1]


# ---- the caller's own faults

def what_a_function_raises_reaches_the_caller():
    fresh()
    grown(0, numbers(range(300)))
    grown(1, numbers(range(300)))
    shards = found(chunk=100)
    raises(ZeroDivisionError, lambda: shards.reduce(lambda block, first: 1 // 0, sum))
    raises(KeyError, lambda: shards.reduce(lambda block, first: 1, lambda parts: {}[5]))
    raises(FileNotFoundError, lambda: shards.reduce(lambda block, first: open("/no/such/file"), list))
    for call in (lambda: shards.reduce(lambda block, first: threading.Lock(), lambda parts: parts[0]),
                 lambda: shards.reduce(functools.partial(lambda lock, block, first: 1, threading.Lock()), sum)):
        begun = time.monotonic()
        fault = raises(Exception, call)
        assert "pickle" in str(fault) or "serialize" in str(fault), repr(fault)
        assert time.monotonic() - begun < BOUND
    assert shards.count(5) == 2, "what comes after is answered"


# ---- machines

def a_task_on_another_machine_refuses():
    fresh()
    pens = [grown(number, numbers(range(number, 500 + number))) for number in (0, 1)]
    shards, (own, other) = found(), CLUSTER.addresses
    cut = shards.cuts[shards.names[0]]
    for call in (cvec.dask._read, [own], cut, 0, 10), (cvec.dask._reduced, [own], cut, 0, 10, size_and_sum, added), \
            (cvec.dask._cut, [own], "a.cv", "u64", None, True):
        raises(WrongMachine, client.submit(*call, workers=[other], pure=False).result)
    # With fusion tasks forget where they belong: where they come is right, or refuses.
    total = shards.array(chunk=50).sum()
    for _ in range(3):
        try:
            assert client.compute(total).result() == of_list(pens)[1]
        except WrongMachine:
            break
    else:
        raise AssertionError("no task came to another machine")
    assert shards.compute(shards.array(chunk=50).sum()) == of_list(pens)[1]


def a_host_is_known_by_what_its_name_is_resolved_to():
    fresh()
    pens = [grown(number, numbers(range(100))) for number in (0, 1)]
    # Another writing of the same address, which the system resolves as it does a name.
    first, second, *rest = CLUSTER.addresses[0].split(".")
    name = f"{first}.{second}.{256 * int(rest[0]) + int(rest[1])}"
    assert socket.gethostbyname(name) == CLUSTER.addresses[0]
    shards = cvec.dask.find(client, "*.cv", "u64", [name, CLUSTER.addresses[1]])
    assert [it.host for it in shards.names] == [name, CLUSTER.addresses[1]]
    assert shards.reduce(size_and_sum, added) == of_list(pens) and shards.compute(shards.array().sum()) == of_list(pens)[1]


def a_host_has_an_address_of_ipv6():
    try:
        with socket.socket(socket.AF_INET6) as it:
            it.bind(("::1", 0))
    except OSError:
        raise Skipped("there is no IPv6 for hosts with such addresses") from None
    fresh()
    folder = os.path.join(FOLDER, "six")
    os.makedirs(folder, exist_ok=True)
    pen = Pen(os.path.join(folder, "six.cv"))
    pen.grow(numbers(range(100)))
    child = CLUSTER.start([sys.executable, "-m", "distributed.cli.dask_worker", CLUSTER.address, "--host", "tcp://[::1]", "--nthreads", "1",
                           "--memory-limit", "0", "--no-dashboard", "--no-nanny", "--local-directory", os.path.join(FOLDER, "dask")],
                          "worker6", folder)
    try:
        wait_until(lambda: any("[::1]" in it for it in client.scheduler_info()["workers"]), "a worker at ::1")
        shards = cvec.dask.find(client, "*.cv", "u64", ["::1"])
        assert [str(it) for it in shards.names] == ["[::1]:six.cv"] and shards.reduce(size_and_sum, added) == of_list([pen])
        assert cvec.dask.from_files(client, ["[::1]:six.cv"], "u64").count(5) == 1
    finally:
        os.killpg(child.pid, signal.SIGKILL)


def a_worker_of_another_version_is_refused():
    """One whose module differs by a byte, and one that has none."""
    fresh()
    grown(0, numbers(range(10)))
    modules = os.path.join(FOLDER, "modules")
    shutil.rmtree(modules, ignore_errors=True)
    shutil.copytree(os.path.join(TOP, "bindings", "python", "cvec"), os.path.join(modules, "cvec"))
    with open(os.path.join(modules, "cvec", "cut.py"), "a") as file:
        file.write("\n")
    for path, told in (modules, " has cvec "), (os.devnull, "cvec"):
        CLUSTER.kill_worker(1)
        CLUSTER.start_worker(1, {"PYTHONPATH": path})
        wait_until(lambda: workers_at(1), "a worker")
        for call in found, lambda: cvec.dask.from_files(client, [f"{CLUSTER.addresses[1]}:a.cv"], "u64"):
            fault = raises(WrongVersion, call)
            assert CLUSTER.addresses[1] in str(fault) and told in str(fault), fault
    CLUSTER.kill_worker(1)
    CLUSTER.start_worker(1)
    wait_until(lambda: workers_at(1), "a worker")


def workers_at(number):
    return [it for it in client.scheduler_info()["workers"] if f"//{CLUSTER.addresses[number]}:" in it]


# ---- what is killed

def in_the_bound(kind, call):
    begun = time.monotonic()
    fault = raises(kind, call)
    assert time.monotonic() - begun < BOUND, f"{time.monotonic() - begun:.1f} s"
    return fault


def a_worker_that_is_killed_is_no_matter():
    """While it takes a cut, reads blocks and joins."""
    fresh()
    pens = [grown(number, numbers(range(2000))) for number in (0, 1)]
    shards = found(chunk=700)
    kill = lambda: os.kill(CLUSTER.worker_process(client, 0), signal.SIGKILL)
    door = Door("killed-each")
    assert meanwhile(door, kill, lambda: shards.reduce(functools.partial(waiting_at, door, size_and_sum, True), added)) == of_list(pens)
    door = Door("killed-join")
    assert meanwhile(door, kill, lambda: shards.reduce(size_and_sum, functools.partial(_joins_at, door))) == of_list(pens)
    wait_until(lambda: workers_at(0), "a worker")
    pid = CLUSTER.worker_process(client, 0)
    os.kill(pid, signal.SIGSTOP)
    threading.Timer(0.5, os.kill, (pid, signal.SIGKILL)).start()
    pens[0].grow(numbers([5]))
    assert len(shards.refresh()) == 4001


def _joins_at(door, parts):
    door.knock()
    return added(parts)


def a_host_without_a_worker_is_missing():
    fresh()
    pens = [grown(number, numbers(range(2000))) for number in (0, 1)]
    shards = found(chunk=700, patience=PATIENCE)
    standing = shards.standing(size_and_sum, added)
    assert standing.value() == of_list(pens)
    CLUSTER.kill_worker(1)
    for call in shards.refresh, lambda: found(patience=PATIENCE):
        assert CLUSTER.addresses[1] in str(in_the_bound(Missing, call))
    shards.on_missing = "skip"
    assert standing.value() == of_list(pens[:1]) and shards.missing == {CLUSTER.addresses[1]}
    assert list(shards.faults) == shards.names[1:] and shards.count(5) == 1
    skipped = found(patience=PATIENCE, missing="skip")
    assert len(skipped) == 2000 and skipped.missing == {CLUSTER.addresses[1]}, "of a host whose files aren't known yet"
    CLUSTER.start_worker(1)
    wait_until(lambda: workers_at(1), "a worker")
    shards.on_missing = "raise"
    read = standing.read
    pens[1].grow(numbers([5] * 10))
    assert standing.value() == of_list(pens) and standing.read == read + 10 and not shards.missing
    assert len(skipped.refresh()) == 4010


def a_host_whose_worker_goes_in_a_query_is_missing():
    fresh()
    grown(0, numbers(range(2000)))
    grown(1, numbers(range(2000)))
    for number in 0, 1:
        shards, door = found(chunk=700, patience=PATIENCE, missing=("raise", "skip")[number]), Door(f"gone{number}")
        call = lambda: meanwhile(door, lambda: CLUSTER.kill_worker(1),
                                 lambda: shards.reduce(functools.partial(waiting_at, door, size_and_sum, True), added))
        if number:
            assert call() == (2000, 1999000) and shards.missing == {CLUSTER.addresses[1]}
        else:
            in_the_bound(Missing, call)
        CLUSTER.start_worker(1)
        wait_until(lambda: workers_at(1), "a worker")


def a_host_whose_network_is_cut_is_missing():
    """Where hosts aren't namespaces, its processes are stopped."""
    fresh()
    pens = [grown(number, numbers(range(2000))) for number in (0, 1)]
    shards, door = found(chunk=700, patience=PATIENCE), Door("cut")
    each = functools.partial(waiting_at, door, size_and_sum, True)
    array = shards.array()
    for call in (lambda: meanwhile(door, lambda: CLUSTER.cut(1), lambda: shards.reduce(each, added)),
                 lambda: shards.compute(array.sum())):
        assert CLUSTER.addresses[1] in str(in_the_bound(Missing, call))
    CLUSTER.mend(1)
    wait_until(lambda: heard_of(1), "a sign of life")
    assert len(shards.refresh()) == 4000 and shards.reduce(size_and_sum, added) == of_list(pens)


def heard_of(number):
    """A worker that was cut off for long ends, and is begun again, as a supervisor does."""
    seen = {it: known["last_seen"] for it, known in client.scheduler_info()["workers"].items() if it in workers_at(number)}
    if CLUSTER.workers[number].poll() is not None:
        CLUSTER.start_worker(number)
    time.sleep(1.5)
    now = {it: known["last_seen"] for it, known in client.scheduler_info()["workers"].items()}
    return any(now.get(it, seen[it]) != seen[it] for it in seen)


def nothing_that_matches_is_missing():
    fresh()
    assert "no-such-*" in str(raises(Missing, lambda: found(pattern="no-such-*")))
    grown(0, numbers(range(10)))
    assert len(found()) == 10
    in_the_bound(Missing, lambda: cvec.dask.find(client, "*.cv", "u64", [CLUSTER.addresses[0], "192.0.2.7"], patience=PATIENCE))


def a_scheduler_that_is_stopped_is_lost():
    """As one whose network is cut. It goes on where it is let."""
    fresh()
    pens = [grown(number, numbers(range(2000))) for number in (0, 1)]
    shards, door = found(chunk=700, patience=PATIENCE), Door("stopped")
    each, stop = functools.partial(waiting_at, door, size_and_sum, True), lambda: CLUSTER.scheduler.send_signal(signal.SIGSTOP)
    try:
        in_the_bound(Lost, lambda: meanwhile(door, stop, lambda: shards.reduce(each, added)))
        for call in shards.refresh, shards.array:
            in_the_bound(Lost, call)
    finally:
        CLUSTER.scheduler.send_signal(signal.SIGCONT)
    wait_until(lambda: heard_of(0) and heard_of(1), "signs of life")
    assert shards.refresh().reduce(size_and_sum, added) == of_list(pens)


def a_scheduler_that_is_killed_is_lost():
    """In a query, and between two. It ends the cluster, so it is the last test."""
    fresh()
    grown(0, numbers(range(2000)))
    grown(1, numbers(range(2000)))
    shards, door = found(chunk=700, patience=PATIENCE), Door("lost")
    each = functools.partial(waiting_at, door, size_and_sum, True)
    array = shards.array()
    begun = time.monotonic()
    meanwhile(door, CLUSTER.kill_scheduler, lambda: raises(Lost, lambda: shards.reduce(each, added)))
    assert time.monotonic() - begun < BOUND
    for call in shards.refresh, lambda: shards.count(5), found, shards.array, lambda: shards.compute(array.sum()):
        in_the_bound(Lost, call)


def run_all():
    global CLUSTER, client
    with Cluster(os.path.join(FOLDER, "cluster")) as CLUSTER:
        client = CLUSTER.client()
        try:
            main(globals(), sys.argv[2:])
        finally:
            # Its scheduler may be gone.
            client.close(timeout=1)


if __name__ == "__main__":
    run_all()
