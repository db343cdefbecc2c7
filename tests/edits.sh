#!/usr/bin/env bash
# Tries the edits in crates/*/must-fail: the prover must refuse each. An edit makes the body of one function wrong, and names
# it in its line `function:`. `rt must-fail` tries them one by one, each by a check of the whole crate. A function is proved of
# its own body by the contracts of those that it calls, so here edits of different functions of a crate are tried at once, and
# only these functions, and those that they call, are checked. An edit is refused if a goal of its function is not proved; a body
# that the borrow checker does not cover says nothing. Where a check says neither this nor that the function is proved, as of
# one that calls another that is not, the edit is tried again by itself. So is one with a line `alone:`, which changes what
# others rely on.
# usage: edits.sh TREE [CRATE..], where TREE is a copy of this repository in which `rt ci` has proved the libraries.
# RT_JOBS may say how many crates are tried side by side.
set -u
repository=$(cd "$(dirname "$0")/.." && pwd)
tree=$(cd "$1" && pwd) || exit 1
shift
toolchain=$(dirname "$(rt doc)") || exit 1
exec python3 - "$repository" "$tree" "$toolchain" "$@" << 'END'
import concurrent.futures
import glob
import os
import re
import shutil
import subprocess
import sys
import tempfile

REPOSITORY, TREE, TOOLCHAIN = sys.argv[1:4]


class Edit:
    """An edit: the function that it makes wrong, and each text that it replaces, with its file."""

    def __init__(self, file):
        self.name = os.path.basename(file).removesuffix(".edit")
        self.function, self.is_alone, self.in_cycle, self.changes = None, False, False, []
        path = old = None
        with open(file, encoding="utf-8") as lines:
            for line in lines.read().split("\n"):
                word, _, rest = line.partition(":")
                if word == "function":
                    self.function = rest.strip()
                elif word == "alone":
                    self.is_alone = True
                elif word == "file":
                    path = rest.strip()
                elif word == "old":
                    old = rest.removeprefix(" ")
                elif word == "new":
                    self.changes.append((path, old, rest.removeprefix(" ")))

    def applied(self, folder):
        """The texts of the files that it changes, or None where one has not each old text exactly once."""
        texts, name = {}, self.function.rpartition("::")[2]
        for path, old, new in self.changes:
            if path not in texts:
                with open(f"{folder}/{path}", encoding="utf-8") as file:
                    texts[path] = file.read()
                self.in_cycle |= bool(re.search(rf"#\[cycle\(\w+\)\](?:(?!\bfn\b).)*\bfn {name}\b", texts[path], re.S))
            if texts[path].count(old) != 1:
                return None
            texts[path] = texts[path].replace(old, new)
        return texts


def libraries():
    """What each line of crates.txt names."""
    named = {}
    with open(f"{TREE}/crates.txt", encoding="utf-8") as lines:
        for line in lines:
            crate, colon, names = line.partition("#")[0].partition(":")
            if colon:
                named[crate.split()[0]] = names.split()
    return named


NAMED = libraries()


def below(crate):
    """The libraries of the repository that a crate is built over."""
    found = {}
    for name in NAMED[crate]:
        if name in NAMED:
            found.update(dict.fromkeys([*below(name), name]))
    return [*found]


def words(crate):
    """The arguments of a check of the crate over its proved libraries."""
    given = ["--crate-name", crate, "src/lib.rt", "--extern", f"std={TOOLCHAIN}/rlibs/std.rlib", "-L", f"dependency={TOOLCHAIN}/rlibs"]
    for name in NAMED[crate]:
        folder = f"{TREE}/crates/{name}/out/rlib" if name in NAMED else f"{TOOLCHAIN}/rlibs"
        given += ["--extern", f"{name}={folder}/{name}.rlib"]
    for name in below(crate):
        given += ["-L", f"dependency={TREE}/crates/{name}/out/rlib"]
    given += ["--antt-project", f"{TOOLCHAIN}/rattle/logic/antt-project.json", "--logic-built", f"{TOOLCHAIN}/logic_built"]
    return [*given, "--links", f"{crate}=", "--jobs", "1"]


def said(crate, folder, kept, functions):
    """What a check of these functions says, line by line."""
    only = [word for name in functions for word in ("--only", name)]
    command = [f"{TOOLCHAIN}/bin/rattle", "check", *words(crate), "--incremental", kept, *only]
    how = {"cwd": folder, "stdin": subprocess.DEVNULL, "stdout": subprocess.PIPE, "stderr": subprocess.STDOUT}
    ran = subprocess.run(command, text=True, errors="replace", **how)
    if ran.returncode < 0:
        # killed, most likely for memory
        ran = subprocess.run(command, text=True, errors="replace", **how)
    return ran.stdout.split("\n")


def refusal(crate, edit, lines):
    """The first line that says that a goal of the edited function, or of a closure in it, is not proved. The functions of a
    cycle of calls have one proof: of what it says only goals of the function count."""
    path, last = edit.function.replace("::", "/"), edit.function.rpartition("::")[2]
    is_own = re.compile(rf"(?:\S*\W)?{last}-")
    for line in lines:
        goal = re.match(r"(?:\./)?proofs/(\S*)/[^/\s]*\.antt:\d+:\d+: error: (?:`([^`]*)`)?", line)
        if goal:
            cycle = re.fullmatch(r"(?:(.*)/)?\+[^/]*", goal[1])
            in_cycle = cycle and path.startswith(f"{cycle[1]}/" if cycle[1] else "") and is_own.match(goal[2] or "")
            if in_cycle or f"{goal[1]}/".replace("/fn/", "/", 1).startswith(f"{path}/"):
                return line
        named = re.match(rf"fn {crate}::(\S+): (?:no proof: expected answers|not proved)", line)
        if named and f"{named[1]}::".replace("::fn::", "::", 1).startswith(f"{edit.function}::") and "it calls" not in line:
            if edit.is_alone or not edit.in_cycle or any(map(is_own.match, re.findall("`([^`]*)`", line))):
                return line
    return None


def is_proved(crate, function, lines):
    return f"fn {crate}::{function}: proved" in lines


def unread(lines):
    """Why the edited text could not be read, if it could not: the check then says nothing of any proof."""
    if any(re.match(r"only=\d+ proved=\d+", line) for line in lines):
        return next((line for line in lines if re.match(r"(\./)?(src|specs)/\S+:\d+:\d+: error", line)), None)
    return next((line for line in lines if "error" in line), lines[0])


def copy_of(crate, room):
    """A folder with the texts of a crate."""
    shutil.rmtree(room, ignore_errors=True)
    for part in ("src", "specs", "proofs"):
        if os.path.isdir(f"{REPOSITORY}/crates/{crate}/{part}"):
            shutil.copytree(f"{REPOSITORY}/crates/{crate}/{part}", f"{room}/{part}")


def chosen(waiting, room):
    """Edits of different functions, none of which changes the text of another, written into the folder."""
    here, functions = [], set()
    for edit in waiting:
        if edit.function in functions or edit.is_alone and here:
            continue
        texts = edit.applied(room)
        if texts is None:
            continue
        for path, text in texts.items():
            with open(f"{room}/{path}", "w", encoding="utf-8") as file:
                file.write(text)
        here.append(edit)
        functions.add(edit.function)
        if edit.is_alone:
            break
    return here


def tried(crate):
    """For each edit of the crate whether it was refused, and what to print."""
    told = []
    with tempfile.TemporaryDirectory(prefix="edits-") as folder:
        room, kept = f"{folder}/room", f"{folder}/kept"
        waiting = [Edit(file) for file in sorted(glob.glob(f"{REPOSITORY}/crates/{crate}/must-fail/*.edit"))]
        while waiting:
            copy_of(crate, room)
            here = chosen(waiting, room) if all(edit.function for edit in waiting) else []
            if not here:
                return told + [(False, f"must-fail {crate}/{edit.name}: BAD EDIT: it names no function, or does not fit the crate") for edit in waiting]
            lines = said(crate, room, kept, [edit.function for edit in here])
            why, again = unread(lines), []
            for edit in here:
                goal = refusal(crate, edit, lines)
                if not why and not goal and not edit.is_alone and not is_proved(crate, edit.function, lines):
                    edit.is_alone = True
                    again.append(edit)
                elif why:
                    told.append((False, f"must-fail {crate}/{edit.name}: BAD EDIT: tried with {len(here) - 1} others, and not read: {why[:200]}"))
                elif goal:
                    told.append((True, f"must-fail {crate}/{edit.name}: refused: {goal[:160]}"))
                else:
                    told.append((False, f"must-fail {crate}/{edit.name}: NOT REFUSED: no contract of {edit.function} refuses it"))
            waiting = [edit for edit in waiting if edit not in here] + again
    return told


def size(crate):
    return sum(os.path.getsize(file) for file in glob.glob(f"{REPOSITORY}/crates/{crate}/src/**/*.rt", recursive=True))


def lanes():
    """How many crates are tried side by side: one for each processor, as far as memory has 4.5 GB for each."""
    jobs = os.environ.get("RT_JOBS", "")
    if jobs.isdigit():
        return max(int(jobs), 1)
    with open("/proc/meminfo", encoding="utf-8") as file:
        memory = 1024 * int(re.search(r"MemAvailable:\s+(\d+)", file.read())[1])
    for limit in glob.glob("/sys/fs/cgroup/memory.max") + glob.glob("/sys/fs/cgroup/memory/memory.limit_in_bytes"):
        with open(limit, encoding="utf-8") as file:
            given = file.read().strip()
        memory = min(memory, int(given)) if given.isdigit() else memory
    return max(min(len(os.sched_getaffinity(0)), int(memory / 4.5e9)), 1)


crates = sys.argv[4:] or {file.split("/")[-3] for file in glob.glob(f"{REPOSITORY}/crates/*/must-fail/*.edit")}
passed = failed = 0
with concurrent.futures.ThreadPoolExecutor(lanes()) as side_by_side:
    for told in side_by_side.map(tried, sorted(crates, key=lambda crate: (-size(crate), crate))):
        for is_refused, line in told:
            print(line, flush=True)
            passed, failed = passed + is_refused, failed + (not is_refused)
print(f"{passed} passed, {failed} failed")
sys.exit(failed > 0)
END
