"""Makes a file, appends to it, opens it again, reads it by copy and by map: use.py FILE"""
import sys

import cvec


def main(path):
    with cvec.File.create(path, "u64") as file:
        file.append([5, 7, 11])
    with cvec.File.open(path, "u64") as file:
        file.append([13])
        copied = [int(it) for it in file.read()]
    with cvec.Map(path, "u64") as seen:
        mapped = [int(it) for it in seen.records()]
    if mapped != copied:
        sys.exit("the map and the copy differ")
    for record in copied:
        print(record)


main(*sys.argv[1:])
