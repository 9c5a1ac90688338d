#!/usr/bin/env python3
"""Times `./medialib play -` over import and decision lines, beside two peers in the same run.

The peers are `jq -c .`, which reads and writes the same lines and does nothing with them, and
bench/peer, a Rust program over serde_json, a HashMap and a BufWriter that answers the same lines. It is
built with cargo from the crates that Debian's librust-serde-json-dev installs. A peer that is missing
on this machine is skipped with a line that says so.

    bench/play.py [IMPORTS [DECISIONS]]

Each program runs some times in turn; the least time of each counts. A decision looks at all files for
now, and a search at many words of the tree, so both are timed over fewer files than the imports.
"""
import os
import pathlib
import shutil
import subprocess
import sys
import tempfile
import time

HERE = pathlib.Path(__file__).resolve().parent
TOP = HERE.parent
ROUNDS = 3
SEARCHED = 20_000
DELETED = 10
TAGGED = 100_000
MAPPED = 1_000_000
MIXED = 50_000
TAGS = 10_000
REGISTRY = pathlib.Path("/usr/share/cargo/registry")


def import_line(number):
    return (
        '{"do":"import","sha256":"%064x","hashes":[],"size":%d,"width":640,"height":480}\n'
        % (number, 1000 + number)
    )


def imports(count):
    return "".join(import_line(number) for number in range(count))


def next_word(word):
    return (word * 6364136223846793005 + 1442695040888963407) % 2**64


def with_hashes(words):
    return "".join(
        import_line(number).replace("[]", '["%016x"]' % word) for number, word in enumerate(words)
    )


def random_words(count):
    """Words of a fixed generator, and every tenth the same as the one before."""
    words = []
    word = 1
    for number in range(count):
        if number % 10 != 9:
            word = next_word(word)
        words.append(word)
    return words


def clustered_words(count):
    """Clusters of ten words, each with up to four bits turned of the cluster's first one."""
    words = []
    word = 1
    for number in range(count):
        if number % 10 == 0:
            word = next_word(word)
            chance = word
            words.append(word)
            continue
        near = word
        for _ in range(4):
            chance = next_word(chance)
            near ^= 1 << (chance >> 58)
        words.append(near)
    return words


def searches(count):
    """Jobs of 1,024 files until none waits."""
    return '{"do":"search_job","n":1024}\n' * (count // 1024 + 1)


def deletions(files):
    """Every tenth file is deleted and comes back, and so again and again."""
    lines = []
    for number in list(range(0, files, 10)) * DELETED:
        lines.append('{"do":"delete","file":%d}\n{"do":"undelete","file":%d}\n' % (number, number))
    return "".join(lines)


def decisions(files, count):
    """Better decisions between neighbours: the groups are pairs, and every second round has no effect."""
    lines = []
    for number in range(count):
        a = 2 * number % (files - files % 2)
        lines.append('{"do":"decide","code":4,"a":%d,"b":%d}\n' % (a, a + 1))
    return "".join(lines)


def mappings(files, count):
    """Current mappings of 10,000 tags, each line another one; the tags of a file lie far apart."""
    lines = []
    for number in range(count):
        tag = (number * 7919 + number // files) % TAGS
        lines.append(
            '{"do":"map","service":0,"tag":"series:tag %d","file":%d,"state":"current"}\n' % (tag, number % files)
        )
    return "".join(lines)


def questions(files):
    """The relations of each file."""
    return "".join('{"do":"relations","file":%d}\n' % number for number in range(files))


def mixed(count):
    """Each file is imported and gets two tags, and then the tags of a file are asked for."""
    tags = mappings(count, 2 * count).splitlines(keepends=True)
    lines = []
    for number in range(count):
        asked = number * 7919 % (number + 1)
        lines += [import_line(number), tags[number], tags[count + number]]
        lines.append('{"do":"mappings","service":0,"file":%d}\n' % asked)
    return "".join(lines)


def seconds(command, path):
    best = None
    for _ in range(ROUNDS):
        with open(path, "rb") as source, open(os.devnull, "wb") as sink:
            start = time.monotonic()
            subprocess.run(command, stdin=source, stdout=sink, check=True)
            taken = time.monotonic() - start
        best = taken if best is None else min(best, taken)
    return best


def peer_command(folder):
    """The peer that answers the same lines, built in a folder of its own; none where it can't be built."""
    if shutil.which("cargo") is None:
        print("peer: skipped, there is no cargo on this machine")
        return None
    if not any(REGISTRY.glob("serde_json-*")):
        print("peer: skipped, Debian's librust-serde-json-dev is not on this machine")
        return None
    target = pathlib.Path(folder) / "peer"
    shutil.copytree(HERE / "peer", target)
    config = target / ".cargo"
    config.mkdir()
    (config / "config.toml").write_text(
        '[source.crates-io]\nreplace-with = "debian"\n[source.debian]\ndirectory = "%s"\n' % REGISTRY
    )
    built = subprocess.run(
        ["cargo", "build", "--release", "--offline", "--quiet"], cwd=target
    )
    if built.returncode != 0:
        print("peer: skipped, it could not be built")
        return None
    return [str(target / "target" / "release" / "peer")]


def programs(folder):
    found = {"medialib": [str(TOP / "medialib"), "play", "-"]}
    if shutil.which("jq") is None:
        print("jq: skipped, it is not on this machine")
    else:
        found["jq"] = ["jq", "-c", "."]
    peer = peer_command(folder)
    if peer is not None:
        found["peer"] = peer
    return found


def report(title, lines, times):
    print("%s, %d lines" % (title, lines))
    for name, taken in times.items():
        print("  %-9s %8.3f s  %10.0f lines a second" % (name, taken, lines / taken))
    for name, taken in times.items():
        if name != "medialib":
            print("  medialib takes %.2f times as long as %s" % (times["medialib"] / taken, name))


def tell_steps(taken, names):
    """What one more line of a kind takes, and twice as many."""

    def more(title, less, name="medialib"):
        return taken[title][name] - taken[less][name]

    deleting = more(
        "the same, and deletions that are taken back",
        "imports with hashes in clusters, and their search jobs",
    )
    print("a deletion or its taking back takes %.0f us" % (deleting / (2 * DELETED * (SEARCHED // 10)) * 1e6))
    mapping = {name: more("the same, and their mappings", "files to be tagged", name) for name in names}
    for name, time_taken in mapping.items():
        print("a mapping takes %.2f us in %s" % (time_taken / MAPPED * 1e6, name))
    if "peer" in mapping:
        print("mappings go at %.2f of the speed of the peer" % (mapping["peer"] / mapping["medialib"]))
    twice = more("twice the mappings", "files to be tagged") / mapping["medialib"]
    print("twice the mappings take %.2f times as long" % twice)
    for title, less in [("twice the imports", "imports"), ("twice the files and decisions", "decisions")]:
        print("%s take %.2f times as long" % (title, taken[title]["medialib"] / taken[less]["medialib"]))


def main():
    count = int(sys.argv[1]) if len(sys.argv) > 1 else 100_000
    decided = int(sys.argv[2]) if len(sys.argv) > 2 else 2_000
    subprocess.run([str(TOP / "medialib"), "play", "-"], stdin=subprocess.DEVNULL, check=True)
    with tempfile.TemporaryDirectory() as folder:
        cases = {
            "imports": (imports(count), count),
            "twice the imports": (imports(2 * count), 2 * count),
            "imports with hashes": (with_hashes(random_words(count)), count),
            "imports with random hashes, and their search jobs": (
                with_hashes(random_words(SEARCHED)) + searches(SEARCHED),
                SEARCHED + SEARCHED // 1024 + 1,
            ),
            "imports with hashes in clusters, and their search jobs": (
                with_hashes(clustered_words(SEARCHED)) + searches(SEARCHED),
                SEARCHED + SEARCHED // 1024 + 1,
            ),
            "the same, and deletions that are taken back": (
                with_hashes(clustered_words(SEARCHED)) + searches(SEARCHED) + deletions(SEARCHED),
                SEARCHED + SEARCHED // 1024 + 1 + 2 * DELETED * (SEARCHED // 10),
            ),
            "files to be tagged": (imports(TAGGED), TAGGED),
            "the same, and their mappings": (imports(TAGGED) + mappings(TAGGED, MAPPED), TAGGED + MAPPED),
            "twice the mappings": (imports(TAGGED) + mappings(TAGGED, 2 * MAPPED), TAGGED + 2 * MAPPED),
            "imports, mappings and questions of them": (mixed(MIXED), 4 * MIXED),
            "decisions": (imports(decided) + decisions(decided, decided), 2 * decided),
            "twice the files and decisions": (
                imports(2 * decided) + decisions(2 * decided, 2 * decided),
                4 * decided,
            ),
            "the same, and questions of relations": (
                imports(2 * decided) + decisions(2 * decided, 2 * decided) + questions(2 * decided),
                6 * decided,
            ),
        }
        commands = programs(folder)
        path = os.path.join(folder, "lines")
        taken = {}
        for title, (text, lines) in cases.items():
            with open(path, "w") as out:
                out.write(text)
            times = {name: seconds(command, path) for name, command in commands.items()}
            taken[title] = times
            report(title, lines, times)
        tell_steps(taken, list(commands))


if __name__ == "__main__":
    main()
