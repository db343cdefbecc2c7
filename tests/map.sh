#!/usr/bin/env bash
# Checks the names in docs/MAP.md and docs/FORMAT.md: each crate, file, definition, function, test and case of a script is
# where the page says, and each fault has a row in MAP.md. Checks too that each edit in must-fail/ fits its crate: the file is
# there, and has the text that is replaced exactly once. Without python3 nothing is checked.
set -u
cd "$(dirname "$0")/.." || exit 1
if ! command -v python3 > /dev/null; then
    echo 'skipped: python3 is not installed here'
    echo '0 passed, 0 failed'
    exit 0
fi
exec python3 - << 'END'
import functools
import glob
import os
import re
import sys

passed = failed = 0


def check(found, where, fault):
    """Counts one check, and prints its fault."""
    global passed, failed
    if found:
        passed += 1
    else:
        failed += 1
        print(f"FAILED: {where}: {fault}")


@functools.cache
def lines_of(path):
    """The lines of a file; none if it is not there."""
    if not os.path.isfile(path):
        return []
    with open(path, encoding="utf-8") as file:
        return file.read().split("\n")


def text_of(path):
    return "\n".join(lines_of(path))


def is_crate(name):
    return os.path.isdir(f"crates/{name}/src")


# ---- what a file has

@functools.cache
def definitions_of(path):
    """What a module of definitions declares, with the fields and constructors: each name before a colon or `where`, or
    before the parameters of a record or of data."""
    names = set()
    for line in lines_of(path):
        line = line.strip()
        declared = re.match(r"((?:(?:abbrev|unfoldable|pub|record|data) )*)([^:({=]*?) *(:|\(|\{|\bwhere\b|$)", line)
        if declared and not line.startswith(("--", "use ", "module ")) and (declared[1] or declared[3] == ":"):
            names.update(declared[2].split())
    return names


def has_item(path, name):
    """Whether a source file has a function, a type or a constant, and of `Type::function` both."""
    *types, last = name.split("::")
    return all(re.search(rf"\b{word}\b", text_of(path)) for word in types) and bool(
        re.search(rf"\b(fn|struct|enum|trait|type|const|def) {last}\b", text_of(path))
    )


def is_test(path, name):
    return bool(re.search(rf"#\[test\]\n(#\[.*\n)*fn {name}\b", text_of(path)))


def is_law(path, name):
    """Whether a function has an empty body, which is on a line of its own after the contract."""
    lines = lines_of(path)
    begins = rf"( *)(pub(\(crate\))? )?fn {name.split('::')[-1]}\b"
    for at, line in enumerate(lines):
        begun = re.match(begins, line)
        if begun:
            bodies = (after for after in lines[at:] if after.startswith(begun[1] + "{") or after == begun[1] + "}")
            return not line.endswith(" {") and next(bodies, "").strip() == "{}"
    return False


# ---- the faults

def faults():
    """Each fault that a call, a program or a filter tells, with its file."""
    for path, kind in [
        ("crates/archive_shape_layout/src/error.rt", "Error"),
        ("crates/cabinet_text_grammar/src/cause.rt", "Cause"),
        ("crates/cabinet_text_nodes/src/refusal.rt", "DocumentRefusal"),
        ("crates/cabinet_text_nodes/src/line.rt", "LineRefusal"),
        ("crates/cabinet_archives/src/opening/refusal.rt", "OpenRefusal"),
        ("crates/cabinet_archives/src/saving/saving.rt", "SaveRefusal"),
        ("crates/cabinet_text/src/session.rt", "RunCause"),
        ("crates/cabinet/src/fault.rt", "Fault"),
    ]:
        variants = re.search(rf"pub enum {kind} \{{\n(.*?)\n\}}", text_of(path), re.S)
        check(variants, path, f"there is no {kind}")
        for fault in re.findall(r"^    ([A-Z]\w*)", variants[1] if variants else "", re.M):
            yield fault, path
    for path in ["examples/json/to_text.jq", "examples/json/to_json.jq"]:
        for fault in re.findall(r"\b(?:fault|ended)\(\"([A-Z]\w*)\"", text_of(path)):
            yield fault, path


FAULTS = dict(faults())


# ---- what a page names

def names_in(cell):
    """The names in a cell, each with its path and the kind of what is there. The crate and the path of one hold for those
    after it."""
    names = []
    crate = kind = path = None
    for span in re.findall(r"`([^`]+)`", cell):
        begin, _, rest = span.partition("/")
        if is_crate(begin):
            crate = begin
        else:
            rest = span
        file, _, name = rest.partition("::")
        module = f"crates/{crate}/specs/{file}.antt"
        script = re.fullmatch(r"(\w+\.sh): (.+)", span)
        if script:
            kind, path, name = "case", f"tests/{script[1]}", script[2]
        elif file.endswith(".rt"):
            kind, path = "item", f"crates/{crate}/src/{file}"
        elif file[0].isupper() and (crate == begin or os.path.isfile(module)):
            kind, path = "definition", module
        elif crate == begin or kind == "folder":
            kind, path = "folder", f"crates/{crate}/src/{file}"
        elif os.path.exists(file.split("/")[0]):
            kind, path = "item", file
        else:
            name = span
        names.append((kind, path, name))
    return names


def check_names(names, where):
    for kind, path, name in names:
        if path is None:
            check(False, where, f"{name} is in no file")
        elif not name:
            check(os.path.exists(path), where, f"there is no {path}")
        elif kind == "definition":
            check(name in definitions_of(path), where, f"{path} does not define {name}")
        elif kind == "item":
            check(has_item(path, name), where, f"{path} has no {name}")
        else:
            check(re.search(rf"['\"]{re.escape(name)}", text_of(path)), where, f"{path} has no case {name}")


def check_row(cells, where):
    """A rule, its definition, its function, and what shows it."""
    check(len(cells) == 4, where, "the row has not four cells")
    for fault in re.findall(r"`([A-Z]\w*)`", cells[0]):
        check(fault in FAULTS, where, f"there is no fault {fault}")
    definitions, functions, tests = map(names_in, cells[1:4])
    check_names(definitions + functions + tests, where)
    for kind, path, name in tests:
        if name and path.endswith(".rt"):
            check(is_test(path, name) or is_law(path, name), where, f"{name} is neither a test nor a law")
    if re.match(r" law\b", cells[3]):
        check(any(is_law(path, name) for kind, path, name in functions), where, "no function here is a law")


def check_map(page):
    in_section = in_rows = False
    for number, line in enumerate(lines_of(page), 1):
        where = f"{page}:{number}"
        cells = line.split("|")[1:-1]
        in_section = in_section or line.startswith("## ")
        in_rows = bool(cells) and (in_rows or cells[0] == "Rule")
        if in_rows and cells[0] != "Rule" and set(line) != set("|-"):
            check_row(cells, where)
        elif in_section and not in_rows:
            check_names(names_in(line), where)
        for word in re.findall(r"\b(?:archive|cabinet)_\w+", re.sub(r"`[^`]*`", "", line)):
            check(is_crate(word), where, f"there is no crate {word}")


def check_faults(page):
    rules = "".join(line.split("|")[1] for line in lines_of(page) if line.startswith("|"))
    for fault, path in FAULTS.items():
        check(f"`{fault}`" in rules, page, f"no rule names {fault} of {path}")


def check_brackets(page):
    """The definitions that are named as [Module::name, name; crate/Module::name], without a crate those of the layout."""
    crates = {"": "archive_shape_layout", "canonical": "archive_shape_canonical"}
    for number, line in enumerate(lines_of(page), 1):
        for bracket in re.findall(r"\[([\w/]+::[^\]]+)\]", line):
            for part in bracket.split("; "):
                module, _, names = part.partition("::")
                crate, _, module = module.rpartition("/")
                path = f"crates/{crates.get(crate, crate)}/specs/{module}.antt"
                check_names([("definition", path, name) for name in names.split(", ")], f"{page}:{number}")


# ---- the edits that the prover must refuse

def check_edits():
    for edit in sorted(glob.glob("crates/*/must-fail/*.edit")):
        crate, path, function = os.path.join(os.path.dirname(edit), ".."), None, ""
        for line in lines_of(edit):
            key, _, value = line.partition(": ")
            if key == "function":
                function = value.rpartition("::")[2]
            elif key == "file":
                path = os.path.join(crate, value)
                check(os.path.isfile(path), edit, f"there is no {value}")
            elif key == "old":
                check(path and text_of(path).count(value) == 1, edit, f"its file has not exactly once: {value}")
        sources = glob.glob(f"{crate}/src/**/*.rt", recursive=True)
        check(any(re.search(rf"\bfn {function}\b", text_of(source)) for source in sources), edit, f"its crate has no function {function}")


check_map("docs/MAP.md")
check_faults("docs/MAP.md")
check_brackets("docs/FORMAT.md")
check_edits()
print(f"{passed} passed, {failed} failed")
sys.exit(failed > 0)
END
