"""The crates of this repository: which stand on which, a repository of some of them alone, and the note by which the
toolchain knows what a library was made from."""
import os
import re
import shutil
import sys

TOP = os.path.dirname(os.path.dirname(os.path.realpath(__file__)))

# Few proofs take more.
BYTES_OF_A_PROOF = 4 << 30


def as_memory_allows(count):
    """So many, or as few as there is free memory for."""
    with open("/proc/meminfo", encoding="utf-8") as file:
        free = 1024 * int(re.search(r"MemAvailable:\s+(\d+)", file.read())[1])
    return max(1, min(count, free // BYTES_OF_A_PROOF))


def lanes():
    """How many crates `rt ci` is to prove side by side (its RT_JOBS): one a processor. By itself it gives a crate several jobs
    where no others are ready, and two took a fifth more of the processors than one."""
    return as_memory_allows(len(os.sched_getaffinity(0)))


def lanes_of_gate():
    """The same for the gate: half as many, and two where there are two. Proofs wait for memory: on 4 processors the same proof
    took a tenth more of its processor beside one other, and half as much more beside three."""
    processors = len(os.sched_getaffinity(0))
    return as_memory_allows(max(min(processors, 2), processors // 2))


def lines_of_crates():
    """The lines of crates.txt by the crates' names."""
    with open(f"{TOP}/crates.txt", encoding="utf-8") as file:
        return {line.split(":")[0].split()[0]: line for line in file if re.match(r"\w", line)}


def crates_below(lines, name):
    """The crates of this repository that it stands on, lowest first."""
    found = []
    for word in lines[name].split(":")[1].split():
        if word in lines:
            found += [*crates_below(lines, word), word]
    return list(dict.fromkeys(found))


def copy_crates(lines, names, copy):
    """Makes a repository of these crates alone, without what builds and wrong bodies have left in their folders."""
    for name in names:
        left = shutil.ignore_patterns("out", "must-fail")
        shutil.copytree(f"{TOP}/crates/{name}", f"{copy}/crates/{name}", ignore=left)
    with open(f"{copy}/crates.txt", "w", encoding="utf-8") as file:
        file.writelines(lines[name] for name in names)
    if os.path.exists(f"{TOP}/HANDLES"):
        shutil.copy(f"{TOP}/HANDLES", copy)


def remove(path):
    if os.path.isdir(path):
        shutil.rmtree(path)
    elif os.path.lexists(path):
        os.remove(path)


def take(made, place, began):
    """Moves a file or a folder to this place: it is there whole, or not at all. It is made as old as what it was made of was
    copied (nanoseconds), so a source that was edited meanwhile is newer."""
    os.makedirs(os.path.dirname(place), exist_ok=True)
    os.utime(made, ns=(began, began))
    new, old = f"{place}.new", f"{place}.old"
    for left in (new, old):
        remove(left)
    shutil.move(made, new)
    if os.path.isdir(place):
        os.rename(place, old)
    os.rename(new, place)
    remove(old)


def note_sources(names, copy):
    """Notes by the library of each of these crates, as the toolchain does, what it was made from: `rt ci` leaves that out."""
    sys.path.insert(0, os.path.dirname(os.path.realpath(shutil.which("rt"))))
    sys.dont_write_bytecode = True
    import rtlib

    # Each crate asks those below it for their sums, so that without these it would read them once for each way down.
    sums, sum_of = {}, rtlib.Crate.stamp

    def stamp(crate):
        if crate.folder not in sums:
            sums[crate.folder] = sum_of(crate)
        return sums[crate.folder]

    rtlib.Crate.stamp = stamp
    known = {}
    for name in names:
        folder = f"{copy}/crates/{name}"
        known[folder] = known.get(folder) or rtlib.Crate(folder, copy, known)
        with open(f"{folder}/out/rlib/stamp", "w", encoding="utf-8") as file:
            file.write(known[folder].stamp())
