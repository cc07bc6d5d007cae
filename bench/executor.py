#!/usr/bin/env python3
"""Times an executor beside two plain queues of keys.

usage: bench/executor.py

Builds the program below over copies of the crates that it stands on, in a folder of its own (a few
minutes where those aren't proved yet), and runs it five times. The program adds 1,024 items,
finishes them in a random order and removes them, 1,000 times: once in an executor, and once in a queue
of the unfinished keys, which is searched for the key that is finished, and one of the finished. Prints
the best time of each and their ratio. It judges nothing, and no other check runs it.
"""
import os
import shutil
import subprocess
import sys
import tempfile

ROOT = os.path.dirname(os.path.dirname(os.path.abspath(__file__)))
BELOW = ("vub_base", "vub_executor")
NAME = "executor_bench"
ITEMS = 1024 * 1000
RUNS = 5

PROGRAM = """\
//! Times an executor beside two plain queues of keys, and writes the microseconds of each.
#![tactic(auto)]

ghost use Rattle.std.specs.Prelude.{◌≤◌};

use std::alloc::Global;
use std::collections::VecDeque;
use std::time::Instant;
use vub_base::Memory;
use vub_executor::Executor;

const ITEMS: usize = 1024;

const ROUNDS: u64 = 1000;

/// The next random number below a bound.
fn below(state: &mut u64, bound: usize) -> usize
    requires { 1 ≤ bound }
{
    *state = state
        .wrapping_mul(6_364_136_223_846_793_005)
        .wrapping_add(1_442_695_040_888_963_407);
    (*state >> 33) as usize % bound
}

/// The sum of the items, each times its place in the order in which they come.
fn weighed(sum: u64, place: usize, item: usize) -> u64 {
    sum.wrapping_add((place as u64).wrapping_mul(item as u64))
}

/// An executor of so many items.
fn filled(alloc: Global) -> Result<Executor<usize>, Memory> {
    let mut executor = Executor::new(alloc, ITEMS)?;
    for order in 0..ITEMS {
        executor.add(order as u64, order);
    }
    Ok(executor)
}

fn round_of_executor(alloc: Global, state: &mut u64) -> Result<u64, Memory> {
    let mut executor = filled(alloc)?;
    for done in 0..ITEMS {
        if let Some(key) = executor.nth(below(state, ITEMS - done)) {
            executor.finish(key);
        }
    }
    let mut sum = 0;
    for place in 0..ITEMS {
        if let Some(item) = executor.remove_first() {
            sum = weighed(sum, place, item);
        }
    }
    Ok(sum)
}

fn round_of_queues(alloc: Global, state: &mut u64) -> anyhow::Result<u64> {
    let mut unfinished = VecDeque::with_capacity(alloc, ITEMS)?;
    let mut finished = VecDeque::with_capacity(alloc, ITEMS)?;
    for key in 0..ITEMS {
        unfinished.push_back(key)?;
    }
    for done in 0..ITEMS {
        let Some(&key) = unfinished.get(below(state, ITEMS - done)) else {
            continue;
        };
        if let Some(place) = unfinished.iter().position(|&other| other == key) {
            unfinished.remove(place);
            finished.push_back(key)?;
        }
    }
    let mut sum = 0;
    for place in 0..ITEMS {
        if let Some(key) = finished.pop_front() {
            sum = weighed(sum, place, key);
        }
    }
    Ok(sum)
}

fn main(rt: HostRuntime) -> anyhow::Result<()> {
    let (mut random, mut same_random) = (1, 1);
    let (mut sum, mut same_sum) = (0u64, 0u64);
    let start = Instant::now(&rt)?;
    for _ in 0..ROUNDS {
        let Ok(more) = round_of_executor(rt.alloc(), &mut random) else {
            return Ok(());
        };
        sum = sum.wrapping_add(more);
    }
    let executor = start.elapsed(&rt)?;
    let start = Instant::now(&rt)?;
    for _ in 0..ROUNDS {
        let more = round_of_queues(rt.alloc(), &mut same_random)?;
        same_sum = same_sum.wrapping_add(more);
    }
    let queues = start.elapsed(&rt)?;
    println!(rt; "{} {} {}", executor.as_micros(), queues.as_micros(), sum == same_sum)?;
    Ok(())
}
"""

INVARIANT = """\
use Rattle.std.proofs.Common.{◌≡◌, ◌<◌, length, []}
use Rattle.std.specs.Prelude.{All}
use Rattle.executor_bench.proofs.filled.Given as goal

-- so many items are there, in order
abbrev pub invariant-loop-order : goal.invariant-loop-order
invariant-loop-order l = (length l.executor.unfinished ≡ l.order) × (l.executor.finished ≡ []) × (l.executor.room ≡ 1024) × All (λ u. u.order < l.order) l.executor.unfinished
"""


def put(path, text):
    """Writes a file, and the folders that it lies in."""
    os.makedirs(os.path.dirname(path), exist_ok=True)
    with open(path, "w") as out:
        out.write(text)


def build(folder):
    """The built program, in a repository of its own."""
    crates = os.path.join(folder, "crates")
    for name in BELOW:
        shutil.copytree(os.path.join(ROOT, "crates", name), os.path.join(crates, name))
    put(os.path.join(crates, NAME, "src", "main.rt"), PROGRAM)
    put(os.path.join(crates, NAME, "proofs", "filled", "Invariants.antt"), INVARIANT)
    with open(os.path.join(ROOT, "crates.txt")) as lines:
        kept = [line for line in lines if line.split(":")[0] in BELOW]
    put(os.path.join(folder, "crates.txt"), "".join(kept) + "%s: anyhow %s\n" % (NAME, " ".join(BELOW)))
    subprocess.run(["git", "init", "-q", folder], check=True)
    ran = subprocess.run(["rt", "run"], cwd=os.path.join(crates, NAME), capture_output=True, text=True)
    program = os.path.join(crates, NAME, "out", NAME)
    if ran.returncode != 0 or not os.path.exists(program):
        sys.exit(ran.stdout[-2000:] + ran.stderr[-2000:])
    return program


def main():
    with tempfile.TemporaryDirectory() as folder:
        program = build(folder)
        times = []
        for _ in range(RUNS):
            executor, queues, same = subprocess.run([program], capture_output=True, text=True, check=True).stdout.split()
            if same != "true":
                sys.exit("the two orders of completion differ")
            times.append((int(executor), int(queues)))
    executor, queues = (min(column) for column in zip(*times))
    print("executor %.2f s, %.2f us an item" % (executor / 1e6, executor / ITEMS))
    print("queues   %.2f s, %.2f us an item" % (queues / 1e6, queues / ITEMS))
    print("ratio    %.2f" % (executor / queues))


if __name__ == "__main__":
    main()
