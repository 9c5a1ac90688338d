#!/usr/bin/env python3
"""Times a search of the proved metric tree beside the same tree in C and a plain scan.

The words are random, and the tree is built. Then as many words come as are named, in an unlucky order, in which
each leads all later ones into its inner part: the nodes that searches read are counted as the words came, once
the lowest branch that insertions told is built anew, and once the tree is built whole. A program is made in a repository of its own, in a folder
that is deleted in the end, from copies of the crates; `rt` proves and builds it. Each program runs some
times in turn, and the least processor time of each figure counts.

    bench/tree/run.py [WORDS [SEARCHES [UNLUCKY]]]
"""
import pathlib
import shutil
import subprocess
import sys
import tempfile

HERE = pathlib.Path(__file__).resolve().parent
TOP = HERE.parent.parent
CRATES = ["media_types", "spare_tables", "vp_tree"]
WITHIN = [4, 8, 16]
ROUNDS = 5

MAIN = r"""//! Times searches in a tree of words that was built.
#![tactic(auto)]

ghost use Rattle.std.specs.Prelude.{◌≡◌, ◌≢◌, ◌<◌, All, IsTrue, length};

use media_types::{Hash64, HashNo, NoMemory, Steps, distance};
use std::alloc::Global;
use std::io;
use std::marker::Brand;
use std::sync::ledger::{Blank, Ledger};
use std::thread::Threads;
use std::time::CpuClock;
use vp_tree::Tree;

const WORDS: u64 = @WORDS@;
const SEARCHES: u64 = @SEARCHES@;
const UNLUCKY: u64 = @UNLUCKY@;

fn word_of(seed: u64) -> Hash64 {
    let mut z = seed.wrapping_mul(0x9e37_79b9_7f4a_7c15);
    z = (z ^ (z >> 30)).wrapping_mul(0xbf58_476d_1ce4_e5b9);
    z = (z ^ (z >> 27)).wrapping_mul(0x94d0_49bb_1331_11eb);
    Hash64(z ^ (z >> 31))
}

fn is_new<L: Ledger>(tree: &Tree, word: Hash64, steps: &mut Steps<L>) -> bool
    ensures { IsTrue result → All (λ node. node.word ≢ word) tree.now.rows }
{
    for at in 0..tree.len() {
        if tree.node(HashNo(at), steps).word.0 == word.0 {
            return false;
        }
    }
    true
}

fn insert_all<L: Ledger>(tree: &mut Tree, steps: &mut Steps<L>) -> Result<(), NoMemory> {
    for seed in 0..WORDS {
        let word = word_of(seed + 1);
        if tree.len() < 4_000_000 && is_new(tree, word, steps) {
            let plan = tree.plan_insert(word)?;
            let _ = tree.commit_insert(plan, steps);
        }
    }
    Ok(())
}

fn build_all<L: Ledger>(tree: &mut Tree, steps: &mut Steps<L>) -> Result<(), NoMemory> {
    if tree.len() > 0 {
        let plan = tree.plan_build(HashNo(0), steps)?;
        tree.commit_build(plan);
    }
    Ok(())
}

fn search_all<L: Ledger>(tree: &Tree, within: u32, steps: &mut Steps<L>) -> Result<u64, NoMemory> {
    let mut found = 0u64;
    for seed in 0..SEARCHES {
        let hits = tree.search(word_of(1_000_000_000 + seed), within, steps)?;
        found = found.wrapping_add(hits.len() as u64);
    }
    Ok(found)
}

// Words that differ in one bit from one to the next, each with the one that differs in all bits behind it.
fn unlucky_word(number: u64) -> Hash64 {
    let half = number / 2;
    let near = half ^ (half / 2);
    Hash64(if number % 2 == 0 { near } else { !near })
}

// The lowest branch that is to be built anew.
fn insert_unlucky<L: Ledger>(tree: &mut Tree, steps: &mut Steps<L>) -> Result<HashNo, NoMemory> {
    let mut lowest = HashNo(u32::MAX);
    for number in 0..UNLUCKY {
        let word = unlucky_word(number);
        if tree.len() < 4_000_000 && is_new(tree, word, steps) {
            let plan = tree.plan_insert(word)?;
            let (_number, branch) = tree.commit_insert(plan, steps);
            lowest = HashNo(lowest.0.min(branch.unwrap_or(lowest).0));
        }
    }
    Ok(lowest)
}

fn build_at<L: Ledger>(tree: &mut Tree, top: HashNo, steps: &mut Steps<L>) -> Result<(), NoMemory> {
    if top.0 < tree.len() {
        let plan = tree.plan_build(top, steps)?;
        tree.commit_build(plan);
    }
    Ok(())
}

// The nodes that a search reads.
fn count_reads<L: Ledger>(
    tree: &Tree,
    alloc: Global,
    query: Hash64,
    within: u64,
    steps: &mut Steps<L>,
) -> Result<u64, NoMemory>
    requires { within < 65 }
{
    let mut reads = 0u64;
    let mut stack = Vec::new(alloc);
    stack.push(HashNo(0))?;
    for _ in 0..tree.len() {
        let Some(at) = stack.pop() else {
            return Ok(reads);
        };
        if at.0 >= tree.len() {
            return Ok(reads);
        }
        let node = tree.node(at, steps);
        reads = reads.wrapping_add(1);
        let away = u64::from(distance(query, node.word));
        if let Some(radius) = node.radius {
            let radius = u64::from(radius);
            if away <= radius + within && let Some(inner) = node.inner {
                stack.push(inner)?;
            }
            if away + within > radius && let Some(outer) = node.outer {
                stack.push(outer)?;
            }
        }
    }
    Ok(reads)
}

fn count_all<L: Ledger>(
    tree: &Tree,
    alloc: Global,
    within: u64,
    steps: &mut Steps<L>,
) -> Result<u64, NoMemory>
    requires { within < 65 }
{
    let mut reads = 0u64;
    for number in 0..SEARCHES {
        let query = unlucky_word(number.wrapping_mul(UNLUCKY / SEARCHES));
        reads = reads.wrapping_add(count_reads(tree, alloc, query, within, steps)?);
    }
    Ok(reads / SEARCHES)
}

fn unlucky<L: Ledger>(
    rt: &impl Print,
    alloc: Global,
    steps: &mut Steps<L>,
) -> io::Result<()> {
    let mut tree = Tree::new(alloc);
    let lowest = insert_unlucky(&mut tree, steps).unwrap_or(HashNo(0));
    let placed = count_all(&tree, alloc, 4, steps).unwrap_or(0);
    let anew = build_at(&mut tree, lowest, steps).is_ok();
    let rebuilt = count_all(&tree, alloc, 4, steps).unwrap_or(0);
    let whole = build_at(&mut tree, HashNo(0), steps).is_ok();
    let built = count_all(&tree, alloc, 4, steps).unwrap_or(0);
    println!(rt; "unlucky {placed} {rebuilt} {built} {anew} {whole}")?;
    Ok(())
}

fn run<L: Ledger>(
    rt: &(impl Print + CpuClock + Threads),
    alloc: Global,
    blank: Blank,
) -> io::Result<()>
    requires name { blank.name ≡ L.name }
    requires parts { blank.parts ≡ L.parts }
    requires some { 0 < L.parts }
{
    let mut steps = Steps::<L>::new(rt, blank);
    let mut tree = Tree::new(alloc);
    let inserted = insert_all(&mut tree, &mut steps).is_ok();
    let start = rt.process_cpu_time()?.as_nanos();
    let built = build_all(&mut tree, &mut steps).is_ok();
    let end = rt.process_cpu_time()?.as_nanos();
    println!(rt; "build {} {inserted} {built}", end.saturating_sub(start))?;
    for within in [@WITHIN@] {
        let start = rt.process_cpu_time()?.as_nanos();
        let found = search_all(&tree, within, &mut steps).unwrap_or(0);
        let end = rt.process_cpu_time()?.as_nanos();
        println!(rt; "search {within} {} {found}", end.saturating_sub(start) / u128::from(SEARCHES))?;
    }
    unlucky(rt, alloc, &mut steps)
}

fn main(rt: HostRuntime) -> io::Result<()> {
    run::<Brand>(&rt, rt.alloc(), Blank::new(1))
}
"""

INVARIANT = """use Rattle.std.proofs.Common.{◌≢◌, ℕ, ◌<◌}
use Rattle.vp_tree.specs.Nodes.{node_at}
use Rattle.tree_bench.proofs.is_new.Given as goal

abbrev pub invariant-loop-at : goal.invariant-loop-at
invariant-loop-at g l = (k : ℕ) → k < l.at → (node_at l.tree.rows k).word.0 ≢ l.word.0
"""

GHOSTS = """use Rattle.tree_bench.proofs.main.Given as goal

abbrev pub ghosts-run : goal.ghosts-run
ghosts-run g a = record { name = a.blank.name; parts = a.blank.parts }
"""

LINES = """media_types:
spare_tables: media_types
vp_tree: media_types spare_tables
tree_bench: media_types vp_tree
"""


def write(path, text):
    path.parent.mkdir(parents=True, exist_ok=True)
    path.write_text(text)


def build_tree(folder, words, searches, unlucky):
    """The program of the proved tree, or None with a line that says why not."""
    if not shutil.which("rt"):
        print("the proved tree is skipped: there is no rt")
        return None
    for name in CRATES:
        shutil.copytree(TOP / "crates" / name, folder / "crates" / name, ignore=shutil.ignore_patterns("out", "must-fail"))
    crate = folder / "crates" / "tree_bench"
    text = MAIN.replace("@WORDS@", str(words)).replace("@SEARCHES@", str(searches)).replace("@UNLUCKY@", str(unlucky))
    write(folder / "crates.txt", LINES)
    write(folder / "HANDLES", "Handles allowed: Threads.\n")
    write(crate / "src" / "main.rt", text.replace("@WITHIN@", ", ".join(map(str, WITHIN))))
    write(crate / "proofs" / "is_new" / "Invariants.antt", INVARIANT)
    write(crate / "proofs" / "main" / "Invariants.antt", GHOSTS)
    done = subprocess.run(["rt", "run"], cwd=crate, capture_output=True, text=True)
    if done.returncode != 0:
        print(done.stdout[-2000:] + done.stderr[-2000:])
        print("the proved tree is skipped: it was not built")
        return None
    return crate / "out" / "tree_bench"


def build_peer(folder):
    """The peer, or None with a line that says why not."""
    compiler = next((c for c in ["gcc", "clang", "cc"] if shutil.which(c)), None)
    if compiler is None:
        print("the tree in C and the scan are skipped: there is no C compiler")
        return None
    program = folder / "peer"
    subprocess.run([compiler, "-O2", "-mpopcnt", "-o", program, HERE / "peer.c"], check=True)
    return program


def run(command):
    """The lines that a program prints: the time to build, and for each distance what was measured."""
    rows = {}
    for line in subprocess.run(command, check=True, capture_output=True, text=True).stdout.splitlines():
        word, *rest = line.split()
        rows[int(rest[0]) if word == "search" else word] = rest
    return rows


def least(rows, key, place):
    return min(float(r[key][place]) for r in rows)


def main():
    words = int(sys.argv[1]) if len(sys.argv) > 1 else 100000
    searches = int(sys.argv[2]) if len(sys.argv) > 2 else 200
    unlucky = int(sys.argv[3]) if len(sys.argv) > 3 else 20000
    with tempfile.TemporaryDirectory() as name:
        folder = pathlib.Path(name)
        tree, peer = build_tree(folder, words, searches, unlucky), build_peer(folder)
        trees, peers = [], []
        for _ in range(ROUNDS):
            if tree:
                trees.append(run([tree]))
            if peer:
                peers.append(run([peer, str(words), str(searches), *map(str, WITHIN)]))
    if trees:
        print(f"building {words} words: {least(trees, 'build', 0) / 1e6:.1f} ms proved")
    if peers:
        print(f"building {words} words: {least(peers, 'build', 0) / 1e6:.1f} ms in C")
    for within in WITHIN:
        parts = [f"distance {within}:"]
        if trees:
            parts.append(f"proved {least(trees, within, 1) / 1e3:.0f} us")
        if peers:
            parts.append(f"in C {least(peers, within, 1) / 1e3:.0f} us, scan {least(peers, within, 2) / 1e3:.0f} us")
            parts.append(f"nodes read {float(peers[0][within][3]):.1%}")
        if trees and peers:
            parts.append(f"proved/C {least(trees, within, 1) / least(peers, within, 1):.2f}")
            parts.append(f"proved/scan {least(trees, within, 1) / least(peers, within, 2):.2f}")
            if trees[0][within][2] != peers[0][within][4]:
                sys.exit(f"distance {within}: {trees[0][within][2]} words found, {peers[0][within][4]} in C")
            parts.append(f"{peers[0][within][4]} found by each")
        print("  ".join(parts))
    if trees:
        placed, rebuilt, built = map(int, trees[0]["unlucky"][:3])
        print(f"{unlucky} words in an unlucky order, distance 4: {placed} nodes read as they came, {rebuilt} once the lowest "
              f"branch that was told is built anew, {built} once the tree is built whole  rebuilt/built {rebuilt / built:.2f}")


if __name__ == "__main__":
    main()
