"""Indexes the words of texts by a pool of threads: word_index.py INDEX WORD TEXT.. Then it prints where WORD stands. The words
of a line are one growth, so a stop leaves whole lines: begun again, it goes on with those that aren't there."""
import re
import sys
import zlib
from concurrent.futures import ThreadPoolExecutor

from cvec import Vector


def record_of(word, text, line):
    """A word of the index: 32 bits of the word's sum, 12 of its text's number, 20 of its line's."""
    return zlib.crc32(word.lower().encode()) << 32 | text << 20 | line


def lines_of(paths):
    """Each line with words: the place of its records, and its words."""
    for text, path in enumerate(paths):
        with open(path, encoding="utf-8") as lines:
            for number, line in enumerate(lines, 1):
                words = re.findall("[A-Za-z]+", line)
                if words:
                    yield text, number, words


def put(vector, text, number, words):
    vector.settle(vector.grow([record_of(word, text, number) for word in words]))  # durable when it returns


def main(index, word, *paths):
    with Vector.open_or_create(index) as vector:
        print(f"found {len(vector)} words", flush=True)
        done = {record & 0xFFFFFFFF for record in vector}
        with ThreadPoolExecutor(4) as pool:
            jobs = [pool.submit(put, vector, *it) for it in lines_of(paths) if it[0] << 20 | it[1] not in done]
        for job in jobs:
            job.result()
        vector.settle()
        wanted = record_of(word, 0, 0)
        for place in sorted({record - wanted for record in vector if record >> 32 == wanted >> 32}):
            print(f"{paths[place >> 20]}:{place & 0xFFFFF}")


main(*sys.argv[1:])
