#!/usr/bin/env python3
"""Times commands of sibling pairs and of parent pairs in clusters of ten tags, among few tags and among many.

    bench/tags.py [FEW [MANY]]

Each session maps all tags to one file and records one pair of the last two, so that the tables have all tags.
Then come rounds over 100 clusters: nine pairs of one kind that make a chain of ten tags, and their removals. The
time of a session without the rounds is taken off. The least time of three runs counts.
"""
import pathlib
import subprocess
import sys
import tempfile
import time

HERE = pathlib.Path(__file__).resolve().parent
PROGRAM = HERE.parent / "medialib"
CLUSTERS = 100
ROUNDS = 10
RUNS = 3


def mapped(count):
    yield '{"do":"import","sha256":"%064x","size":1,"width":1,"height":1}\n' % 0
    for tag in range(count):
        yield '{"do":"map","service":0,"tag":"t%d","file":0,"state":"current"}\n' % tag


FIELDS = {"sibling": ("bad", "good"), "parent": ("child", "parent")}


def pair(command, kind, first, second):
    one, other = FIELDS[kind]
    return '{"do":"%s_%s","service":0,"%s":"t%d","%s":"t%d"}\n' % (command, kind, one, first, other, second)


def rounds(count, kind):
    """All pairs of the clusters, which lie apart among the tags."""
    apart = count // CLUSTERS
    for _ in range(ROUNDS):
        for command in ("add", "remove"):
            for cluster in range(CLUSTERS):
                for tag in range(9):
                    first = cluster * apart + tag
                    yield pair(command, kind, first, first + 1)


def write(lines):
    kept = tempfile.NamedTemporaryFile("w", suffix=".jsonl", delete=False)
    with kept:
        kept.writelines(lines)
    return pathlib.Path(kept.name)


def least(path):
    times = []
    for _ in range(RUNS):
        with path.open("rb") as lines:
            begun = time.perf_counter()
            subprocess.run([PROGRAM, "play", "-"], stdin=lines, stdout=subprocess.DEVNULL, check=True)
            times.append(time.perf_counter() - begun)
    return min(times)


def session(count, then):
    """The least time of a session of so many tags with these lines behind."""
    path = write([*mapped(count), *then])
    try:
        return least(path)
    finally:
        path.unlink()


def measure(count, kind):
    first = pair("add", kind, count - 2, count - 1)
    alone = session(count, [])
    grown = session(count, [first])
    whole = session(count, [first, *rounds(count, kind)])
    commands = 2 * 9 * CLUSTERS * ROUNDS
    each = (whole - grown) / commands
    print(
        "%s, %d tags: %.2f µs a command, %.3f s for the first pair, %.2f s for the tags"
        % (kind, count, each * 1e6, grown - alone, alone)
    )
    return each


def main():
    few = int(sys.argv[1]) if len(sys.argv) > 1 else 1_000
    many = int(sys.argv[2]) if len(sys.argv) > 2 else 1_000_000
    for kind in FIELDS:
        one = measure(few, kind)
        other = measure(many, kind)
        print("%s, among many: %.2f of the time among few" % (kind, other / one))


main()
