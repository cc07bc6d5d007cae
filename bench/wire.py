#!/usr/bin/env python3
"""Times the cutter of vhost-user messages on a stream of 16 MiB.

usage: bench/wire.py [FOLDER]

Builds the program bench/wire.rt.in over the crates of this repository, in FOLDER, or in a temporary folder
that is removed again (a first build proves the crates, which takes minutes). The stream is like a
recorded one: front ends join again and again, each with 1 to 4 queues and 1 to 8 memory regions, read
the config space, set up the in-flight region and the queues, and stop them again; each join has a
request that is skipped. The program feeds the stream in pieces of 4,096 bytes and of 1 byte, and looks
into each message: the sum over all that the messages carry must be the one computed here.

`sha256sum` runs over the same file in turn with it, three times; the best time of each counts. Prints
the times and their ratio, which may be at most 6 for pieces of 4,096 bytes. Ends with status 1 where it
is more, or where the program didn't find the same messages.
"""
import os
import random
import shutil
import struct
import subprocess
import sys
import tempfile
import time

ROOT = os.path.dirname(os.path.dirname(os.path.abspath(__file__)))
NAME = "wire_bench"
LIMIT = 16 * 1024 * 1024
RUNS = 3
MOST_RATIO = 6.0
MASK = 2**64 - 1

# Numbers of requests, and flags of a header: version 1, and the bit that asks for an acknowledgement.
GET_FEATURES, SET_FEATURES, SET_OWNER, SET_MEM_TABLE = 1, 2, 3, 5
SET_VRING_NUM, SET_VRING_ADDR, SET_VRING_BASE, GET_VRING_BASE = 8, 9, 10, 11
SET_VRING_KICK, SET_VRING_CALL = 12, 13
GET_PROTOCOL_FEATURES, SET_PROTOCOL_FEATURES, GET_QUEUE_NUM, SET_VRING_ENABLE = 15, 16, 17, 18
GET_CONFIG, SET_CONFIG, GET_INFLIGHT_FD, SET_INFLIGHT_FD = 24, 25, 31, 32
SKIPPED = 33
PLAIN, ASKING = 1, 9


class Stream:
    """Messages, with their count and the sum over what they carry."""

    def __init__(self):
        self.bytes = bytearray()
        self.count = 0
        self.sum = 0

    def send(self, request, flags, form="", *fields, free=b"", summed=None):
        """One message: its payload has these fields and then free bytes, which aren't summed."""
        payload = struct.pack("<" + form, *fields) + free
        self.bytes += struct.pack("<III", request, flags, len(payload)) + payload
        self.count += 1
        for number in (request, *(fields if summed is None else summed)):
            self.sum = (self.sum * 31 + number) & MASK

    def table(self, regions):
        numbers = [number for region in regions for number in region]
        self.send(SET_MEM_TABLE, ASKING, f"II{len(numbers)}Q", len(regions), 0, *numbers, summed=numbers)

    def config(self, request, flags, offset, content):
        self.send(request, flags, f"III{len(content)}B", offset, len(content), 0, *content)

    def join(self, dice):
        """A front end that joins, and stops its queues."""
        queues = dice.randint(1, 4)
        self.send(GET_PROTOCOL_FEATURES, PLAIN)
        self.send(SET_PROTOCOL_FEATURES, PLAIN, "Q", 0x1209)
        self.send(GET_QUEUE_NUM, PLAIN)
        self.send(GET_FEATURES, PLAIN)
        self.send(SET_OWNER, PLAIN)
        self.config(GET_CONFIG, PLAIN, 0, bytes(60))
        self.send(SKIPPED, PLAIN, free=dice.randbytes(dice.randint(0, 64)))
        self.send(SET_FEATURES, ASKING, "Q", 0x150007244)
        regions = [(g << 30, dice.randrange(2**30), dice.getrandbits(47), g << 30) for g in range(dice.randint(1, 8))]
        self.table(regions)
        self.send(GET_INFLIGHT_FD, PLAIN, "QQHH", 0, 0, queues, 64, free=bytes(4))
        self.send(SET_INFLIGHT_FD, ASKING, "QQHH", 4096, 0, queues, 64, free=bytes(4))
        for index in range(queues):
            self.send(SET_VRING_NUM, ASKING, "II", index, 64)
            self.send(SET_VRING_BASE, ASKING, "II", index, dice.getrandbits(16))
            self.send(SET_VRING_ADDR, ASKING, "IIQQQQ", index, 0, *(dice.getrandbits(47) for _ in range(4)))
            self.send(SET_VRING_KICK, PLAIN, "Q", index)
            self.send(SET_VRING_CALL, PLAIN, "Q", index)
            self.send(SET_VRING_ENABLE, ASKING, "II", index, 1)
        self.config(SET_CONFIG, ASKING, 32, b"\1")
        for index in range(queues):
            self.send(GET_VRING_BASE, PLAIN, "II", index, 0)


def stream():
    """A stream of 16 MiB, whose last join ends at or just past them."""
    dice = random.Random(16)
    made = Stream()
    while len(made.bytes) < LIMIT:
        made.join(dice)
    return made


def needed():
    """The lines of crates.txt for vub_wire and the crates of this repository below it."""
    with open(os.path.join(ROOT, "crates.txt")) as file:
        lines = {line.split(":")[0]: line for line in file if ":" in line}
    names, found = ["vub_wire"], []
    while names:
        name = names.pop()
        if name in lines and name not in found:
            found.append(name)
            names += lines[name].split(":")[1].split()
    return {name: lines[name] for name in found}


def build(folder):
    """Proves and builds the program, over copies of the crates; its path."""
    crates = os.path.join(folder, "crates")
    lines = needed()
    for name in lines:
        shutil.copytree(os.path.join(ROOT, "crates", name), os.path.join(crates, name), dirs_exist_ok=True)
    os.makedirs(os.path.join(crates, NAME, "src"), exist_ok=True)
    shutil.copy(os.path.join(ROOT, "bench", "wire.rt.in"), os.path.join(crates, NAME, "src", "main.rt"))
    with open(os.path.join(folder, "crates.txt"), "w") as file:
        file.writelines([*lines.values(), f"{NAME}: vub_memtable vub_wire\n"])
    run = subprocess.run(["rt", "run"], cwd=os.path.join(crates, NAME), stdin=subprocess.DEVNULL, stdout=subprocess.PIPE, text=True)
    if run.returncode != 0:
        sys.exit(f"the program wasn't built:\n{run.stdout}")
    return os.path.join(crates, NAME, "out", NAME)


def timed(command, path):
    """The seconds that a command takes with the file as its input, and what it prints."""
    with open(path, "rb") as file:
        start = time.perf_counter()
        run = subprocess.run(command, stdin=file, stdout=subprocess.PIPE, text=True, check=True)
        return time.perf_counter() - start, run.stdout.strip()


def measure(program, folder):
    """Runs the program and prints what it took; whether it found the messages in time."""
    made = stream()
    path = os.path.join(folder, "stream")
    with open(path, "wb") as file:
        file.write(made.bytes)
    wanted = f"{made.count} {len(made.bytes)} {made.sum}"
    times = {4096: [], 1: []}
    sums, same = [], True
    for _ in range(RUNS):
        for piece, seconds in times.items():
            took, printed = timed([program, str(piece)], path)
            seconds.append(took)
            same = same and printed == wanted
        sums.append(timed(["sha256sum"], path)[0])
    print(f"stream: {len(made.bytes):,} bytes, {made.count:,} messages")
    print(f"  sha256sum        {min(sums):>8.3f} s")
    for piece, seconds in times.items():
        print(f"  pieces of {piece:>5}  {min(seconds):>8.3f} s   ratio {min(seconds) / min(sums):.2f}")
    print(f"  at most {MOST_RATIO:.0f} for pieces of 4096; the messages are {'the same' if same else 'OTHERS'}")
    return same and min(times[4096]) <= MOST_RATIO * min(sums)


def main():
    with tempfile.TemporaryDirectory() as temporary:
        folder = os.path.abspath(sys.argv[1]) if len(sys.argv) > 1 else temporary
        good = measure(build(folder), temporary)
    sys.exit(0 if good else 1)


if __name__ == "__main__":
    main()
