#!/usr/bin/env python3
# Usage: bench/editing.py CAB CAB_SHOW CAB_EDIT [KEYS]. What sessions of cab_edit cost on an ordered map of a million keys, unless
# KEYS is given: ten edits by key and 10,000, half of which replace a node and half of which add one. Prints the least processor
# times of five runs, taken in turns, beside those of building the archive and printing its text.
import random
import resource
import shutil
import subprocess
import sys
import tempfile

cab, show, edit = sys.argv[1:4]
keys = int(sys.argv[4]) if len(sys.argv) > 4 else 1_000_000


def processor_time(command: list[str], lines: str) -> float:
    """The seconds of processor time that a command takes, which reads the lines."""
    before = resource.getrusage(resource.RUSAGE_CHILDREN)
    subprocess.run(command, input=lines, text=True, stdout=subprocess.DEVNULL, check=True)
    after = resource.getrusage(resource.RUSAGE_CHILDREN)
    return after.ru_utime + after.ru_stime - before.ru_utime - before.ru_stime


def edits(count: int) -> str:
    """Lines that put a number under keys that are there, and as many under keys that may not be."""
    chosen = (f"key{random.randrange(keys):07}" if at % 2 else f"new{random.randrange(10 * keys)}" for at in range(count))
    return "".join(f"put int {at} '{key}\n" for at, key in enumerate(chosen))


random.seed(1)
few, many = edits(10), edits(10_000)
with tempfile.TemporaryDirectory() as folder:
    text, archive, edited = (f"{folder}/{name}" for name in ("text", "a.cab", "b.cab"))
    with open(text, "w", encoding="utf-8") as file:
        file.write(f"ordered {keys}\n")
        file.writelines(f"'key{key:07}\nint {key}\n" for key in range(keys))
    times: dict[str, list[float]] = {"build": [], "show": [], "ten edits": [], "10,000 edits": []}
    for _ in range(5):
        times["build"].append(processor_time([cab, "build", text, archive], ""))
        times["show"].append(processor_time([show, archive], ""))
        for name, lines in (("ten edits", few), ("10,000 edits", many)):
            shutil.copy(archive, edited)
            times[name].append(processor_time([edit, edited], lines))
least = {name: min(taken) for name, taken in times.items()}
for name, taken in least.items():
    print(f"{name}: {taken:.2f} s")
print(f"ten edits, to build and show: {least['ten edits'] / (least['build'] + least['show']):.2f}")
print(f"10,000 edits, to ten: {least['10,000 edits'] / least['ten edits']:.2f}")
