#!/usr/bin/env python3
"""Times `vublk replay` on schedules of just under 16 MiB each.

usage: bench/replay.py [PROGRAM [OTHER]]

PROGRAM is the built program, crates/vublk/out/vublk by default. It replays, on a queue of 64 places:

  single   one write of a sector after another, each asked for, handed over, drained and collected
  batches  32 flushes open at once, as many as the queue has descriptors for, drained in one batch of
           32 and then collected
  steps    the same batches, but each step of the device is an event of its own
  kills    one write after another, each met by a kill between its act and the used ring, and answered by
           the next life

Each time the output goes to a file, and `sha256sum` runs over that file, each five times in turn and on
one processor; the best time of each counts. Prints both, their ratio, which may be at most 2.5 (3 for
kills), and how much memory the program took at most beyond the input, which may be 200 MB. Ends with
status 1 where one is more.

Where a second program OTHER is given, it runs in the same turns on each schedule that it accepts, and
the time that PROGRAM computes is printed as a part of that of OTHER, the best of each: 1.02 says that
PROGRAM is slower by 2%.
"""
import os
import resource
import subprocess
import sys
import tempfile
import time

ROOT = os.path.dirname(os.path.dirname(os.path.abspath(__file__)))
LIMIT = 16_777_216
RUNS = 5
MOST_RATIO = 2.5
MOST_RATIO_OF_KILLS = 3.0
MOST_MEMORY = 200_000_000
CAPACITY = 4096
BATCH = 32


def single(number):
    """One write, from its request to its collection, and how many requests it is."""
    sector = number * 7 % CAPACITY
    return b"ask 0 d write %d %02x\nguest 0 16\ndrain 0\ncollect 0\n" % (sector, number % 256), 1


def batches(number):
    """A batch of flushes."""
    return b"ask 0 d flush\nguest 0 16\n" * BATCH + b"drain 0\n" + b"collect 0\n" * BATCH, BATCH


def steps(number):
    """A batch of flushes, each step of the device for itself."""
    start = b"start 0\n" * 68 if number == 0 else b""
    asks = b"ask 0 d flush\nguest 0 16\n" * BATCH
    work = b"fetch 0\n" * (2 * BATCH) + b"work 0 0\n" * (2 * BATCH) + b"publish 0 64\n" * (5 * BATCH + 3)
    return start + asks + work + b"collect 0\n" * BATCH, BATCH


def kills(number):
    """One write, whose life ends after its status is stored, and the life after it."""
    sector = number * 7 % CAPACITY
    start = b"drain 0\n" if number == 0 else b""
    ask = b"ask 0 d write %d %02x\nguest 0 16\nturn 0 4\n" % (sector, number % 256)
    return start + ask + b"kill\nboot\njoin\ndrain 0\ncollect 0\n", 1


def schedule(group):
    """The text of a schedule of such groups, and how many requests it has."""
    text = bytearray(b"vub 1 split 1 64 %d 0 back\nboot\njoin\n" % CAPACITY)
    groups = requests = 0
    while True:
        lines, more = group(groups)
        if len(text) + len(lines) > LIMIT:
            return bytes(text), requests
        text += lines
        groups += 1
        requests += more


def timed(command, source, target):
    """The seconds that a command takes, those that it computes, and the most memory that it held, in bytes."""
    with open(source, "rb") as stdin, open(target, "wb") as stdout:
        start = time.perf_counter()
        child = subprocess.Popen(command, stdin=stdin, stdout=stdout)
        _, status, usage = os.wait4(child.pid, 0)
        seconds = time.perf_counter() - start
    if status != 0:
        sys.exit(f"{command[0]} ended with status {os.waitstatus_to_exitcode(status)}")
    return seconds, usage.ru_utime, usage.ru_maxrss * 1024


def accepts(program, source):
    """Whether a program knows all lines of a schedule."""
    with open(source, "rb") as stdin:
        return subprocess.run([program, "replay"], stdin=stdin, stdout=subprocess.DEVNULL).returncode == 0


def measure(name, group, program, other, folder):
    """Runs one schedule and prints what it took; whether it stayed within the limits."""
    source = os.path.join(folder, "schedule")
    records = os.path.join(folder, "records")
    digest = os.path.join(folder, "digest")
    text, requests = schedule(group)
    with open(source, "wb") as file:
        file.write(text)
    compares = other is not None and accepts(other, source)
    runs, computed, others, sums, memory = [], [], [], [], 0
    for _ in range(RUNS):
        if compares:
            others.append(timed([other, "replay"], source, records)[1])
        seconds, computes, held = timed([program, "replay"], source, records)
        runs.append(seconds)
        computed.append(computes)
        memory = max(memory, held - len(text))
        sums.append(timed(["sha256sum"], records, digest)[0])
    ratio, most = min(runs) / min(sums), MOST_RATIO_OF_KILLS if group is kills else MOST_RATIO
    print(f"{name}: {len(text):,} bytes, {requests:,} requests")
    print(f"  records    {os.path.getsize(records):>12,} bytes")
    print(f"  replay     {min(runs):>12.3f} s")
    print(f"  sha256sum  {min(sums):>12.3f} s")
    print(f"  ratio      {ratio:>12.2f}   (at most {most})")
    print(f"  memory     {memory / 1e6:>12.1f} MB beyond the input (at most {MOST_MEMORY / 1e6:.0f})")
    if compares:
        print(f"  computes   {min(computed):>12.3f} s")
        print(f"  other      {min(others):>12.3f} s")
        print(f"  part       {min(computed) / min(others):>12.3f}")
    return ratio <= most and memory <= MOST_MEMORY


def main():
    program = sys.argv[1] if len(sys.argv) > 1 else os.path.join(ROOT, "crates/vublk/out/vublk")
    other = sys.argv[2] if len(sys.argv) > 2 else None
    os.sched_setaffinity(0, {max(os.sched_getaffinity(0))})
    with tempfile.TemporaryDirectory() as folder:
        good = [measure(group.__name__, group, program, other, folder) for group in (single, batches, steps, kills)]
    sys.exit(0 if all(good) else 1)


if __name__ == "__main__":
    main()
