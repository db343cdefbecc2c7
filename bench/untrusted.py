#!/usr/bin/env python3
# Usage: bench/untrusted.py CAB CAB_SHOW. What archives cost that a stranger made so that they are slow to open or large to
# load: hashed maps whose keys have one hash; hashed maps with one empty place, where a search finds a key late; and a list
# of wholes which all have one long shared text. Prints the size of each archive, the least processor times of five runs of
# `cab run` without lines and of `cab_show`, and the most memory of `cab_show`.
import itertools
import re
import resource
import struct
import subprocess
import sys
import tempfile

MASK = 2**64 - 1


def hash_of(key: bytes) -> int:
    """The hash of a text: its words of eight bytes, and a last one."""
    padded = key + bytes(-len(key) % 8)
    value = 0
    for word in [*struct.unpack(f"<{len(padded) // 8}Q", padded), 0xFF]:
        rotated = (value << 5 | value >> 59) & MASK
        value = (rotated ^ word) * 0x517CC1B727220A95 & MASK
    return value


def keys_of_one_hash(count: int) -> list[bytes]:
    """Keys of two words, of which the second makes up for the first."""
    keys = []
    for letters in itertools.product(b"abcdefghijklmnopqrstuvwxyz", repeat=8):
        if len(keys) == count:
            break
        first = int.from_bytes(letters, "big")
        value = first * 0x517CC1B727220A95 & MASK
        second = (value << 5 | value >> 59) & MASK
        if second & 0x8080808080808080 == 0:
            keys.append(struct.pack("<QQ", first, second))
    return sorted(keys)


def strides(first: int, places: int):
    """The positions among the controls that a search visits."""
    room = (places + 15) // 16 * 16
    power = 1
    while power < room:
        power *= 2
    at, step = first, 0
    for _ in range(room // 16):
        while at >= room:
            step += 16
            at = (at + step) % power
        yield at
        step += 16
        at = (at + step) % power


def offset(own: int, target: int) -> bytes:
    return struct.pack("<i", target - own)


def node(tag: int, payload: bytes) -> bytes:
    return (bytes([tag, 0, 0, 0]) + payload).ljust(24, b"\0")


def number(value: int) -> bytes:
    return node(1, struct.pack("<4xq", value))


def last_free(free: bytearray, first: int, empty: int) -> int | None:
    """The last free place that the strides from a first one show before the place that stays empty."""
    capacity = len(free)
    before = []
    for at in strides(first, capacity):
        if at <= empty < at + 16 or at <= empty + capacity < at + 16:
            break
        before.append(at)
    for at in reversed(before):
        place = free.rfind(1, at, at + 16) if at + 16 <= capacity else -1
        if place >= 0:
            return place
    return None


def full_table(count: int) -> bytes:
    """A hashed map whose table has one empty place, and each item at the last place where a search finds it. Keys without
    such a place are left out."""
    capacity = count + 1
    room = (capacity + 15) // 16 * 16
    free = bytearray(b"\x01") * capacity
    empty = capacity // 2
    free[empty] = 0
    buckets = bytearray(32 * capacity)
    controls = bytearray(b"\xff") * (room + 15)
    numbers = itertools.count()
    while any(free):
        key = b"%08d" % next(numbers)
        hashed = hash_of(key)
        place = last_free(free, hashed % capacity, empty)
        if place is None:
            continue
        free[place] = 0
        start = 32 * (capacity - place - 1)
        buckets[start:start + 32] = key + number(place)
        for control in range(place, min(room + 15, 2 * capacity), capacity):
            controls[control] = hashed >> 57
    archive = bytes(buckets + controls)
    archive += bytes(-len(archive) % 8)
    root = len(archive)
    return archive + node(7, offset(root + 4, len(buckets)) + struct.pack("<II", count, capacity))


def shared_in_wholes(length: int, count: int) -> bytes:
    """A list of wholes, each a list of one shared text and a number of its own."""
    archive = bytearray(b"t" * length)
    archive += bytes(-len(archive) % 8)
    wholes = []
    for whole in range(count):
        elements = len(archive)
        archive += node(3, offset(elements + 4, 0) + struct.pack("<I", length)) + number(whole)
        wholes.append(len(archive))
        archive += node(5, offset(len(archive) + 4, elements) + struct.pack("<I", 2))
    elements = len(archive)
    for whole in wholes:
        archive += node(9, offset(len(archive) + 4, whole))
    return bytes(archive + node(5, offset(len(archive) + 4, elements) + struct.pack("<I", count)))


def processor_time(command: list[str]) -> float:
    """The processor time of a command that must succeed, whose output is not kept."""
    before = resource.getrusage(resource.RUSAGE_CHILDREN)
    subprocess.run(command, stdin=subprocess.DEVNULL, stdout=subprocess.DEVNULL, check=True)
    after = resource.getrusage(resource.RUSAGE_CHILDREN)
    return after.ru_utime + after.ru_stime - before.ru_utime - before.ru_stime


def most_memory(command: list[str]) -> int:
    """The most kilobytes that a command held when it waits for room to write what it shows."""
    with subprocess.Popen(command, stdin=subprocess.DEVNULL, stdout=subprocess.PIPE, pipesize=4096) as program:
        program.stdout.read(1)
        status = ""
        while "State:\tS" not in status:
            with open(f"/proc/{program.pid}/status", encoding="utf-8") as file:
                status = file.read()
        program.kill()
    return int(re.search(r"VmHWM:\s*(\d+) kB", status)[1])


def measure(title: str, archive: bytes) -> None:
    with tempfile.NamedTemporaryFile() as file:
        file.write(archive)
        file.flush()
        opened = min(processor_time([cab, "run", file.name]) for _ in range(5))
        shown = min(processor_time([show, file.name]) for _ in range(5))
        held = most_memory([show, file.name])
    print(f"{title}: {len(archive):,} bytes; opened in {opened:.3f} s; shown in {shown:.2f} s with {held / 1000:.1f} MB")


def built(keys: list[bytes]) -> bytes:
    """The archive that cab builds of a hashed map of these keys."""
    with tempfile.TemporaryDirectory() as folder:
        with open(f"{folder}/text", "wb") as text:
            text.write(b"hashed %d\n" % len(keys))
            for value, key in enumerate(keys):
                key = key.replace(b"\\", b"\\\\").replace(b"\n", b"\\n").replace(b" ", b"\\s")
                text.write(b"'%s\nint %d\n" % (key, value))
        subprocess.run([cab, "build", f"{folder}/text", f"{folder}/archive"], stdout=subprocess.DEVNULL, check=True)
        with open(f"{folder}/archive", "rb") as archive:
            return archive.read()


if len(sys.argv) != 3:
    sys.exit("usage: bench/untrusted.py CAB CAB_SHOW")
cab, show = sys.argv[1:]
for count in [5_000, 10_000, 20_000]:
    measure(f"{count:,} keys of one hash", built(keys_of_one_hash(count)))
for count in [5_000, 10_000, 20_000]:
    measure(f"{count:,} keys in a table with one empty place", full_table(count))
for length in [2_000, 20_000, 200_000]:
    measure(f"2,000 wholes with one shared text of {length:,} bytes", shared_in_wholes(length, 2_000))
