#!/usr/bin/env python3
"""Which files name a word of the split ring: by file of the crates below, with the part that it belongs to.

python3 bench/ring_words.py [FOLDER OF CRATES]
"""
import os
import re
import sys

# the words of its two rings, and its type. The record of the places of a queue's rings (Ring, ring_of, the_ring) is none of
# them: it is the same for both formats
WORDS = """
avail_idx avail_idx_place avail_entry_place used_idx used_idx_place used_id_place used_len_place entry_of head_at last_head
element_at elements_from heads_from seen ahead desc_place offer_stores index_store words_at WordsAt SplitRing
""".split()
FACTS = "ringed driven words".split()
CRATES = "vub_run vub_run_laws vub_queue_in_run vub_world".split()

# files of the ring half by their name: the split ring, and the descriptors of its chains
RING = re.compile(r"^(Ring|RunChains|RunDescriptors|RunLawful|RunParts|Lawful)")
# the one file of laws, through which the other half reaches it
LAWS = re.compile(r"^RunQueue$")
# the queue of the device at a moment: each format has its own, by the rings of its set-up
QUEUE = "vub_queue_in_run"

NAME = re.compile(r"[^\W\d]\w*")
FIELD = re.compile(r"\.queue\.(\w+)")


def part_of(crate, stem):
    if crate == QUEUE:
        return "queue"
    if LAWS.match(stem):
        return "laws"
    return "ring" if RING.match(stem) else "history"


def code_of(path):
    with open(path, encoding="utf-8") as file:
        lines = file.read().split("\n")
    return "\n".join(line for line in lines if not line.startswith(("use ", "pub use ")) and not line.lstrip().startswith("--"))


def found_in(path):
    code = code_of(path)
    names = set(NAME.findall(code))
    facts = set(FIELD.findall(code))
    return [word for word in WORDS if word in names] + [".queue." + fact for fact in FACTS if fact in facts]


def files_of(crate):
    for part in ("specs", "proofs"):
        for folder, _, names in sorted(os.walk(os.path.join(crate, part))):
            for name in sorted(names):
                if name.endswith(".antt") and name != "Lib.antt":
                    yield os.path.join(folder, name)


def main():
    crates = sys.argv[1] if len(sys.argv) > 1 else os.path.join(os.path.dirname(os.path.dirname(os.path.abspath(__file__))), "crates")
    for crate in CRATES:
        count = {}
        for path in files_of(os.path.join(crates, crate)):
            stem = os.path.basename(path)[:-5]
            words = found_in(path)
            part = part_of(crate, stem)
            key = (part, bool(words))
            count[key] = count.get(key, 0) + 1
            print(f"{os.path.relpath(path, crates):64} {part:8} {' '.join(words) or '-'}")
        print(f"{crate}: " + ", ".join(f"{many} {part} {'with' if names else 'without'} words" for (part, names), many in sorted(count.items())))


main()
