#!/usr/bin/env python3
"""Times a table of pairs beside std::set in C++, and a small one beside a sorted vector.

The pairs are random. A program is made in a repository of its own, in a folder that is deleted in the
end, from copies of the crates; `rt` proves and builds it. Each program runs some times in turn, and the
least processor time of each figure counts.

    bench/tables/run.py [ROWS]
"""
import pathlib
import shutil
import subprocess
import sys
import tempfile

HERE = pathlib.Path(__file__).resolve().parent
TOP = HERE.parent.parent
CRATES = ["media_types", "spare_tables"]
CALLS = ["insert", "find", "walk", "remove"]
ROUNDS = 5

MAIN = r"""//! Times a table of pairs, and a sorted vector where there are few.
#![tactic(auto)]

ghost use Rattle.std.specs.Prelude.{◌≡◌, ◌<◌};

use media_types::{NoMemory, Steps};
use spare_tables::{KeyMap, PairSet};
use std::alloc::Global;
use std::io;
use std::marker::Brand;
use std::sync::ledger::{Blank, Ledger};
use std::thread::Threads;
use std::time::CpuClock;

const ROWS: u64 = @ROWS@;
const WIDE_ROWS: u64 = 90_000;
const FEW: u64 = 100;
const TIMES: u64 = 10_000;

fn pair_of(seed: u64) -> (u32, u32) {
    let mut z = seed.wrapping_mul(0x9e37_79b9_7f4a_7c15);
    z = (z ^ (z >> 30)).wrapping_mul(0xbf58_476d_1ce4_e5b9);
    z = (z ^ (z >> 27)).wrapping_mul(0x94d0_49bb_1331_11eb);
    z ^= z >> 31;
    (((z / 0x1_0000_0000) % 0x1_0000_0000) as u32, (z % 0x1_0000_0000) as u32)
}

fn insert_all(set: &mut PairSet, rows: u64) -> Result<(), NoMemory> {
    for seed in 0..rows {
        set.reserve(1)?;
        set.insert(pair_of(seed));
    }
    Ok(())
}

fn find_all<L: Ledger>(set: &PairSet, rows: u64, steps: &mut Steps<L>) -> u64 {
    let mut found = 0u64;
    for seed in 0..rows {
        if set.contains(pair_of(seed), steps) {
            found = found.wrapping_add(1);
        }
    }
    found
}

fn walk_all<L: Ledger>(set: &PairSet, steps: &mut Steps<L>) -> u64 {
    let mut sum = 0u64;
    let mut walk = set.walk();
    for _ in 0..set.len() {
        if let Some(pair) = walk.next(steps) {
            sum = sum.wrapping_add(u64::from(pair.1));
        }
    }
    sum
}

fn remove_all(set: &mut PairSet, rows: u64) -> u64 {
    let mut gone = 0u64;
    for seed in 0..rows {
        if set.remove(pair_of(seed)) {
            gone = gone.wrapping_add(1);
        }
    }
    gone
}

// The same over a sorted vector.
fn insert_in_vector(rows: &mut Vec<(u32, u32)>, pair: (u32, u32)) -> Result<(), NoMemory> {
    match rows.binary_search(&pair) {
        Ok(_) => Ok(()),
        Err(at) => Ok(rows.insert(at, pair)?),
    }
}

fn remove_from_vector(rows: &mut Vec<(u32, u32)>, pair: (u32, u32)) -> bool {
    match rows.binary_search(&pair) {
        Ok(at) => {
            rows.remove(at);
            true
        }
        Err(_) => false,
    }
}

fn fill_vector(rows: &mut Vec<(u32, u32)>) -> Result<(), NoMemory> {
    for seed in 0..FEW {
        insert_in_vector(rows, pair_of(seed))?;
    }
    Ok(())
}

fn find_in_vector(rows: &Vec<(u32, u32)>) -> u64 {
    let mut found = 0u64;
    for seed in 0..FEW {
        if rows.binary_search(&pair_of(seed)).is_ok() {
            found = found.wrapping_add(1);
        }
    }
    found
}

fn empty_vector(rows: &mut Vec<(u32, u32)>) -> u64 {
    let mut gone = 0u64;
    for seed in 0..FEW {
        if remove_from_vector(rows, pair_of(seed)) {
            gone = gone.wrapping_add(1);
        }
    }
    gone
}

fn few_in_table<L: Ledger>(set: &mut PairSet, steps: &mut Steps<L>) -> u64 {
    let mut done = 0u64;
    for _ in 0..TIMES {
        if insert_all(set, FEW).is_ok() {
            done = done.wrapping_add(find_all(set, FEW, steps));
            done = done.wrapping_add(remove_all(set, FEW));
        }
    }
    done
}

fn few_in_vector(rows: &mut Vec<(u32, u32)>) -> u64 {
    let mut done = 0u64;
    for _ in 0..TIMES {
        if fill_vector(rows).is_ok() {
            done = done.wrapping_add(find_in_vector(rows));
            done = done.wrapping_add(empty_vector(rows));
        }
    }
    done
}

// Rows as wide as those of tallies.
fn fill_wide(map: &mut KeyMap<(u32, u32), [u32; 17]>) -> Result<(), NoMemory> {
    for seed in 0..WIDE_ROWS {
        map.reserve(1)?;
        map.insert(pair_of(seed), [1; 17]);
    }
    Ok(())
}

// Takes each row out and puts it back.
fn turn_wide(map: &mut KeyMap<(u32, u32), [u32; 17]>) -> Result<u64, NoMemory> {
    let mut taken = 0u64;
    for seed in 0..WIDE_ROWS {
        if map.remove(pair_of(seed)) {
            taken = taken.wrapping_add(1);
        }
        map.reserve(1)?;
        map.insert(pair_of(seed), [1; 17]);
    }
    Ok(taken)
}

fn tell(rt: &(impl Print + CpuClock), word: &str, start: u128, calls: u64, sum: u64) -> io::Result<u128> {
    let end = rt.process_cpu_time()?.as_nanos();
    println!(rt; "{word} {} {calls} {sum}", end.saturating_sub(start))?;
    Ok(rt.process_cpu_time()?.as_nanos())
}

fn run<L: Ledger>(
    rt: &(impl Print + CpuClock + Threads),
    alloc: Global,
    blank: Blank,
) -> io::Result<()>
    requires name { blank.name ≡ L.name }
    requires parts { blank.parts ≡ L.parts }
    requires some { 0 < L.parts }
{
    let mut steps = Steps::<L>::new(rt, blank);
    let mut set = PairSet::new(alloc);
    let start = rt.process_cpu_time()?.as_nanos();
    let _ = insert_all(&mut set, ROWS);
    let start = tell(rt, "insert", start, ROWS, set.len())?;
    let found = find_all(&set, ROWS, &mut steps);
    let start = tell(rt, "find", start, ROWS, found)?;
    let sum = walk_all(&set, &mut steps);
    let start = tell(rt, "walk", start, ROWS, sum)?;
    let gone = remove_all(&mut set, ROWS);
    let start = tell(rt, "remove", start, ROWS, gone)?;
    let mut few = PairSet::new(alloc);
    let done = few_in_table(&mut few, &mut steps);
    let start = tell(rt, "few", start, 3 * FEW * TIMES, done)?;
    let mut rows = Vec::new(alloc);
    let done = few_in_vector(&mut rows);
    let _ = tell(rt, "vector", start, 3 * FEW * TIMES, done)?;
    let mut wide = KeyMap::new(alloc);
    let _ = fill_wide(&mut wide);
    let start = rt.process_cpu_time()?.as_nanos();
    let turned = turn_wide(&mut wide).unwrap_or(0);
    let _ = tell(rt, "wide", start, WIDE_ROWS, turned)?;
    Ok(())
}

fn main(rt: HostRuntime) -> io::Result<()> {
    run::<Brand>(&rt, rt.alloc(), Blank::new(1))
}
"""

GHOSTS = """use Rattle.table_bench.proofs.main.Given as goal

abbrev pub ghosts-run : goal.ghosts-run
ghosts-run g a = record { name = a.blank.name; parts = a.blank.parts }
"""

LINES = """media_types:
spare_tables: media_types
table_bench: media_types spare_tables
"""


def write(path, text):
    path.parent.mkdir(parents=True, exist_ok=True)
    path.write_text(text)


def build_table(folder, rows):
    """The program of the proved tables, or None with a line that says why not."""
    if not shutil.which("rt"):
        print("the proved tables are skipped: there is no rt")
        return None
    for name in CRATES:
        shutil.copytree(TOP / "crates" / name, folder / "crates" / name, ignore=shutil.ignore_patterns("out", "must-fail"))
    crate = folder / "crates" / "table_bench"
    write(folder / "crates.txt", LINES)
    write(folder / "HANDLES", "Handles allowed: Threads.\n")
    write(crate / "src" / "main.rt", MAIN.replace("@ROWS@", str(rows)))
    write(crate / "proofs" / "main" / "Invariants.antt", GHOSTS)
    done = subprocess.run(["rt", "run"], cwd=crate, capture_output=True, text=True)
    program = crate / "out" / "table_bench"
    if not program.exists():
        print(done.stdout[-2000:] + done.stderr[-2000:])
        print("the proved tables are skipped: they were not built")
        return None
    return program


def build_peer(folder):
    """The peer, or None with a line that says why not."""
    compiler = next((c for c in ["g++", "clang++", "c++"] if shutil.which(c)), None)
    if compiler is None:
        print("std::set is skipped: there is no C++ compiler")
        return None
    program = folder / "peer"
    subprocess.run([compiler, "-O2", "-o", program, HERE / "peer.cpp"], check=True)
    return program


def run_table(program):
    """For each kind of call its time in nanoseconds, and what it found."""
    rows = {}
    for line in subprocess.run([program], check=True, capture_output=True, text=True).stdout.splitlines():
        word, nanoseconds, calls, found = line.split()
        rows[word] = (float(nanoseconds) / int(calls), found)
    return rows


def run_peer(program, rows):
    lines = subprocess.run([program, str(rows)], check=True, capture_output=True, text=True).stdout.splitlines()
    return {word: (float(time), found) for word, time, found in (line.split() for line in lines)}


def least(runs, word):
    return min(run[word][0] for run in runs)


def main():
    rows = int(sys.argv[1]) if len(sys.argv) > 1 else 1_000_000
    with tempfile.TemporaryDirectory() as name:
        folder = pathlib.Path(name)
        table, peer = build_table(folder, rows), build_peer(folder)
        tables, peers = [], []
        for _ in range(ROUNDS):
            if table:
                tables.append(run_table(table))
            if peer:
                peers.append(run_peer(peer, rows))
    for word in CALLS:
        parts = [f"{word} of {rows} rows:"]
        if tables:
            parts.append(f"proved {least(tables, word):.1f} ns")
        if peers:
            parts.append(f"std::set {least(peers, word):.1f} ns")
        if tables and peers:
            parts.append(f"proved/std::set {least(tables, word) / least(peers, word):.3f}")
            if tables[0][word][1] != peers[0][word][1]:
                sys.exit(f"{word}: {tables[0][word][1]}, and {peers[0][word][1]} in C++")
        print("  ".join(parts))
    if tables:
        few, vector = least(tables, "few"), least(tables, "vector")
        print(f"100 rows: proved {few:.1f} ns a call  sorted vector {vector:.1f} ns  proved/vector {few / vector:.2f}")
        print(f"90,000 rows of 76 bytes: out and back in {least(tables, 'wide') / 1e3:.2f} us")


if __name__ == "__main__":
    main()
