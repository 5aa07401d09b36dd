#!/usr/bin/env python3
"""What an insertion into an ordered list costs, and a search: makes a small program over the crate ordered_list in a folder of its
own, builds it, and runs it with 10,000, 100,000 and a million items of 48 bytes, in order and at random, with and without a search
for each item. Prints the microseconds an insertion and a search, the best of three runs, and the peak memory.

It needs `rt`, and takes a minute or two to prove and build the program. Then: python3 bench/insertions.py
"""
import os
import shutil
import subprocess
import tempfile

from session import run

ROOT = os.path.dirname(os.path.dirname(os.path.abspath(__file__)))

MAIN = """//! Inserts so many items into an ordered list, in order or at random, and finds each if it is to.
#![tactic(auto)]

ghost use Rattle.std.specs.Prelude.{◌≤◌};

use ordered_list::{NoMemory, OrderedList};
use std::alloc::Global;
use std::env;
use std::io;

/// As large as an entry of the index of positions.
#[derive(Clone, Copy)]
#[derive_where(Debug, PartialEq, Eq, PartialOrd, Ord)]
struct Entry {
    key: u64,
    second: u64,
    third: u64,
    code: [u8; 12],
    #[derive_where(skip(EqHashOrd))]
    number: u64,
}

fn entry_of(number: u32, step: u64) -> Entry {
    Entry {
        key: u64::from(number).wrapping_mul(step),
        second: 0,
        third: 0,
        code: [0; 12],
        number: 1,
    }
}

fn fill(list: &mut OrderedList<Entry>, count: u32, step: u64)
    requires { count ≤ list.old.room }
{
    for number in 0..count {
        list.insert(entry_of(number, step));
    }
}

fn hits(list: &OrderedList<Entry>, count: u32, step: u64) -> u32 {
    let mut hits: u32 = 0;
    for number in 0..count {
        if list.find(&entry_of(number, step)).is_some() {
            hits = hits.saturating_add(1);
        }
    }
    hits
}

fn run(alloc: Global, count: u32, step: u64, finds: bool) -> Result<u32, NoMemory> {
    let mut list = OrderedList::new(alloc)?;
    list.reserve(count)?;
    fill(&mut list, count, step);
    Ok(if finds { hits(&list, count, step) } else { 0 })
}

fn main(rt: HostRuntime) -> io::Result<()> {
    let mut count = 0;
    let mut step = 1;
    let mut finds = false;
    let Ok(args) = env::args(&rt) else { return Ok(()); };
    for word in args.skip(1) {
        if let Ok(number) = word.as_str().parse::<u32>() {
            count = number;
        }
        if word.as_str() == "random" {
            step = 0x9E37_79B9_7F4A_7C15;
        }
        if word.as_str() == "find" {
            finds = true;
        }
    }
    if let Ok(found) = run(rt.alloc(), count, step, finds) {
        println!(rt; "{found}")?;
    }
    Ok(())
}
"""

INVARIANT = """use Rattle.std.proofs.Common.{◌+◌, ◌≤◌}
use Rattle.inserts.proofs.fill.Given as goal

-- there is room for what is left
abbrev pub invariant-loop-number : goal.invariant-loop-number
invariant-loop-number l = l.count ≤ l.list.room + l.number
"""


def write(path, text):
    os.makedirs(os.path.dirname(path), exist_ok=True)
    with open(path, "w") as out:
        out.write(text)


def build(folder):
    """Builds the program in the folder, and gives its path."""
    crates = os.path.join(folder, "crates")
    ignored = shutil.ignore_patterns("out", "must-fail")
    shutil.copytree(os.path.join(ROOT, "crates", "ordered_list"), os.path.join(crates, "ordered_list"), ignore=ignored)
    program = os.path.join(crates, "inserts")
    write(os.path.join(program, "src", "main.rt"), MAIN)
    write(os.path.join(program, "proofs", "fill", "Invariants.antt"), INVARIANT)
    write(os.path.join(folder, "crates.txt"), "ordered_list:\ninserts: ordered_list\n")
    subprocess.run(["rt", "run", "--", "0"], cwd=program, check=True, stdin=subprocess.DEVNULL, stdout=subprocess.DEVNULL)
    return os.path.join(program, "out", "inserts")


def best(words):
    return min((run(words, os.devnull) for _ in range(3)), key=lambda result: result[0])


def main():
    with tempfile.TemporaryDirectory() as folder:
        program = build(folder)
        for count in (10_000, 100_000, 1_000_000):
            for order in ("order", "random"):
                inserted, peak, _ = best([program, str(count), order])
                found, _, _ = best([program, str(count), order, "find"])
                print(
                    f"{count:9} items, {order:6}: {inserted / count * 1e6:6.2f} us an insertion, "
                    f"{max(found - inserted, 0) / count * 1e6:6.2f} us a search, peak {peak / 1e3:.1f} MB"
                )


if __name__ == "__main__":
    main()
