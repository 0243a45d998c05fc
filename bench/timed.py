"""What bench/commands and bench/tokens share: processes are timed whole, and the ways to do one work by turns."""
import os
import statistics
import subprocess
import sys
import time

TOP = os.path.dirname(os.path.dirname(os.path.abspath(__file__)))


def run(words, source=os.devnull, target=os.devnull):
    """The seconds that a process takes."""
    with open(source, "rb") as reader, open(target, "wb") as writer:
        start = time.perf_counter()
        subprocess.run(words, stdin=reader, stdout=writer, check=True)
        return time.perf_counter() - start


def remove(path):
    if os.path.exists(path):
        os.remove(path)


class Work:
    """A line of a table, and by name the functions that do it, one for each way. Each answers its figure, mostly seconds."""

    def __init__(self, name, ways):
        self.name, self.ways = name, ways
        self.figures = {way: [] for way in ways}

    def repeat(self, order):
        ways = list(self.ways)
        for way in ways[order % len(ways):] + ways[:order % len(ways)]:
            self.figures[way].append(self.ways[way]())

    def medians(self):
        return {way: statistics.median(figures) for way, figures in self.figures.items()}


def folder_and_numbers(usage, *numbers):
    """A script's words: a folder, and numbers, each with what it is without a word, and its least. Else the script ends."""
    words = sys.argv[1:]
    given = words[1:]
    are_words = (1 <= len(words) <= 1 + len(numbers) and os.path.isdir(words[0])
                 and all(word.isdecimal() and int(word) >= least for word, (_, least) in zip(given, numbers)))
    if not are_words:
        print(f"usage: {usage}", file=sys.stderr)
        sys.exit(2)
    return words[0], *map(int, given), *(usual for usual, _ in numbers[len(given):])
