#!/usr/bin/env python3
"""Usage: tests/growing.py CAB CAB_SHOW CAB_EDIT [SESSIONS [SEED]]. Runs sessions of random lines that add, replace and remove
nodes of random documents in archives (2,000 sessions unless SESSIONS is given), several at once. Each answer is compared with
that of a plain reference, documents in Python, and the archive after the session, byte for byte, with what `cab build` makes of
the reference's text, which `cab_show` must print. The first difference is printed, with the seed, the text and the lines."""

import concurrent.futures
import itertools
import os
import pathlib
import random
import re
import subprocess
import sys
import tempfile

MAPS = ("ordered", "hashed", "kept")
CONTAINERS = ("option", "list", "whole", *MAPS)
MOST_DEPTH = 64  # of containers that lie in one another
# the kinds of the nodes at which a line is carried out
KINDS = {b"put": ("option", "list", *MAPS), b"insert": ("list",), b"keys": ("ordered", "kept"), b"range": ("ordered",)}


# ---- documents
class Node:
    """A node of a document: its kind and its content. A bool and an int have their value, a text and a shared text their bytes,
    an option a node or None, a whole a node, a list its elements, and a map its nodes under their keys, in order."""
    def __init__(self, kind, content):
        self.kind, self.content = kind, content

    def steps(self):
        """The steps to the nodes right inside: keys of a map, places in a list, None into an option or a whole."""
        if self.kind in MAPS or self.kind == "list":
            return list(self.content if self.kind in MAPS else range(len(self.content)))
        return [None] if self.kind == "whole" or self.kind == "option" and self.content else []

    def at(self, step):
        """The node that a step leads to, or None."""
        if isinstance(step, bytes):
            return self.content.get(step) if self.kind in MAPS else None
        if isinstance(step, int):
            return self.content[step] if self.kind == "list" and step < len(self.content) else None
        return self.content if self.kind in ("option", "whole") else None

    def inside(self):
        return [self.at(step) for step in self.steps()]

    def depth(self):
        return self.kind in CONTAINERS and 1 + max((node.depth() for node in self.inside()), default=0)

    def has_whole(self):
        return self.kind == "whole" or any(node.has_whole() for node in self.inside())


ESCAPES = {b"\\": b"\\\\", b"\n": b"\\n", b" ": b"\\s"}
def escaped(text):
    return re.sub(rb"[\\\n ]", lambda byte: ESCAPES[byte[0]], text)

def unescaped(text):
    return re.sub(rb"\\.", lambda escape: {b"n": b"\n", b"s": b" "}.get(escape[0][1:], b"\\"), text)


def head(node):
    """The head of a node, as `get` answers it."""
    if node.kind == "bool":
        return b"bool true" if node.content else b"bool false"
    if node.kind == "int":
        return b"int %d" % node.content
    if node.kind in ("text", "shared"):
        return node.kind.encode() + b" '" + escaped(node.content)
    if node.kind == "option":
        return b"some" if node.content else b"none"
    return b"whole" if node.kind == "whole" else b"%s %d" % (node.kind.encode(), len(node.content))


def lines_of(node, wholes):
    """The lines of a node. Each whole gets a number, by its lines, once the wholes in it have theirs."""
    if node.kind == "whole":
        inside = lines_of(node.content, wholes)
        return b"whole %d\n" % wholes.setdefault(inside, len(wholes))
    lines = [head(node) + b"\n"]
    for step, inner in zip(node.steps(), node.inside()):
        if node.kind in MAPS:
            lines.append(b"'" + escaped(step) + b"\n")
        lines.append(lines_of(inner, wholes))
    return b"".join(lines)


def text_of(root):
    """The text of a document: the trees of its wholes, and the root."""
    wholes = {}
    lines = lines_of(root, wholes)
    return (b"wholes %d\n" % len(wholes) if wholes else b"") + b"".join(wholes) + lines


# ---- lines
TEXT = rb"'(?:[^\\ \n]|\\[\\ns])*"
PATH = rb"((?: #0| #[1-9][0-9]*| \?| " + TEXT + rb")*)"
LEAF = rb"bool true|bool false|int (?:0|-?[1-9][0-9]*)|text " + TEXT
NEW = LEAF + rb"|shared " + TEXT + rb"|none|list 0|ordered 0|hashed 0|kept 0"
LINES = [rb"(get|keys|remove)()()", rb"(range) (%b) (%b)" % (TEXT, TEXT), rb"(set) (%b)()" % LEAF, rb"(put|insert) (%b)()" % NEW]


def spelled_path(path):
    """A path, each step after a space."""
    steps = [b"?" if step is None else b"#%d" % step if isinstance(step, int) else b"'" + escaped(step) for step in path]
    return b"".join(b" " + step for step in steps)


def read_head(spelled):
    """The node of a head that tells all of the node."""
    kind, _, value = spelled.decode().partition(" ")
    if kind == "none":
        return Node("option", None)
    if kind in ("list", *MAPS):
        return Node(kind, [] if kind == "list" else {})
    if kind in ("bool", "int"):
        return Node(kind, value == "true" if kind == "bool" else int(value))
    return Node(kind, unescaped(value[1:].encode()))


def read_line(line):
    """What a line says: its verb, what stands between the verb and the path, and the path; None if it is no line."""
    if line.decode(errors="ignore").encode() != line:
        return None
    found = next(filter(None, (re.fullmatch(form + PATH, line) for form in LINES)), None)
    if not found:
        return None
    verb, first, second, path = found.groups()
    path = [None if step == b"?" else int(step[1:]) if step[:1] == b"#" else unescaped(step[1:]) for step in path.split(b" ")[1:]]
    given = (unescaped(first[1:]), unescaped(second[1:])) if second else read_head(first) if first else None
    is_number = verb == b"range" or not given or given.kind != "int" or -(2**63) <= given.content < 2**63
    is_path = all(not isinstance(step, int) or step < 2**64 for step in path)
    return (verb, given, path) if is_number and is_path else None


# ---- answers
def edit(root, verb, new, path):
    """The answer to an edit that adds, replaces or removes a node. A path that leads into a whole is followed no further."""
    if not path:
        if verb != b"put" or root.has_whole():
            return b"missing" if verb == b"insert" else b"refused"
        root.kind, root.content = new.kind, new.content
        return b"ok"
    old = root
    for step in path:
        container = old
        if container is None:
            return b"missing"
        if container.kind == "whole" and step is None:
            return b"refused"
        old = container.at(step)
    kind = container.kind
    may_be_new = kind == "option" and step is None or kind in MAPS and isinstance(step, bytes)
    is_end = kind == "list" and step == len(container.content)
    if verb == b"insert" and kind != "list" or old is None and (verb == b"remove" or not may_be_new and not is_end):
        return b"missing"
    # each step of the path leads into a container around the new node
    if old and verb != b"insert" and old.has_whole() or new and len(path) + new.depth() > MOST_DEPTH:
        return b"refused"
    if kind == "option":
        container.content = new
    elif kind == "list":
        container.content[step : step + (verb != b"insert")] = [new] if new else []
    elif new is None:
        del container.content[step]
    else:
        container.content[step] = new
        if kind != "kept":
            container.content = dict(sorted(container.content.items()))
    return b"ok"


def answer(root, line):
    """The answer to a line, which may edit the document."""
    said = read_line(line)
    if said is None:
        return b"bad"
    verb, given, path = said
    if verb in (b"put", b"insert", b"remove"):
        return edit(root, verb, given, path)
    node, is_in_whole = root, False
    for step in path:
        is_in_whole = is_in_whole or node.kind == "whole"
        node = node.at(step)
        if node is None:
            return b"missing"
    if verb == b"get":
        return head(node)
    if verb != b"set":
        if node.kind not in KINDS[verb]:
            return b"wrong"
        keys = [key for key in node.content if verb == b"keys" or given[0] <= key < given[1]]
        return b"keys %d" % len(keys) + spelled_path(keys)
    fits = given.kind == node.kind and (given.kind != "text" or len(given.content) == len(node.content))
    if fits and not is_in_whole:
        node.content = given.content
    return b"ok" if fits and not is_in_whole else b"refused"


# ---- random documents
KEYS = ["", "a", "b", "ab", "a b", "a\\b", "a\nb", "a!", "A", "ä", "日本語の鍵", "😀", "#0", "?", "'", "longer than eight"]
NEW_ROOTS = {"none": b"none", "list": b"list 0", "ordered": b"ordered 0", "hashed": b"hashed 0", "kept": b"kept 0"}
WEIGHTS = {b"put": 8, b"insert": 5, b"remove": 3, b"get": 4, b"keys": 2, b"range": 2, b"set": 4}
NONSENSE = [b"", b"get ", b"put", b"put some #0", b"insert list 1 #0", b"remove  #0", b"put whole #0", b"removed", b"put int 05 #0",
            b"put int -0", b"insert none #00", b"put text ' a", b"put text '\\t 'a", b"set none", b"set shared 'a", b"put hashed",
            b"remove #18446744073709551616", b"put int 9223372036854775808", b"put text '\xff", b"get '\xed\xa0\x80", b"range 'a"]


def some_text(rng):
    return "".join(rng.choices("abz \\\n#'?\r\0äé日😀", k=rng.choice((0, 1, 3, 7, 8, 9, 40)))).encode()

def some_key(rng):
    return rng.choice(KEYS).encode() if rng.random() < 0.9 else some_text(rng)


def some_leaf(rng, kinds=("bool", "int", "text", "shared")):
    kind = rng.choice(kinds)
    if kind in ("text", "shared"):
        return Node(kind, some_text(rng))
    return Node(kind, rng.choice((0, -1, 7, 10, 2**63 - 1, -(2**63))) if kind == "int" else rng.random() < 0.5)


def container_of(rng, kind, nodes):
    """A container of a kind that has these nodes, under different keys where it is a map."""
    if kind not in MAPS:
        return Node(kind, nodes if kind == "list" else nodes[0] if nodes else None)
    pairs = {some_key(rng): node for node in nodes}
    return Node(kind, pairs if kind == "kept" else dict(sorted(pairs.items())))


def some_node(rng, room, wholes):
    """A node in which at most `room` containers lie in one another; wholes has the wholes that there are."""
    kind = rng.choice(("list", "list", "option", "whole", "leaf", "leaf") + MAPS * 2)
    if kind == "leaf" or room == 0:
        return some_leaf(rng)
    if kind == "whole":
        if not wholes or rng.random() < 0.4:
            wholes.append(Node(kind, some_node(rng, min(room - 1, 3), wholes)))
        whole = rng.choice(wholes)
        return whole if whole.depth() <= room else some_leaf(rng)
    count = rng.randint(0, 1) if kind == "option" else rng.choice((0, 1, 2, 3, 5, 12))
    return container_of(rng, kind, [some_node(rng, room - rng.randint(1, room), wholes) for _ in range(count)])


def some_document(rng, is_deep):
    root = container_of(rng, rng.choice(("list",) + MAPS), [some_node(rng, 3, []) for _ in range(rng.randint(0, 5))])
    for _ in range(rng.randint(61, MOST_DEPTH) - root.depth() if is_deep else 0):
        kind = "whole" if rng.random() < 0.003 else rng.choice(("list", "option") + MAPS)
        nodes = [root] if kind in ("option", "whole") else [some_leaf(rng), root][rng.randint(0, 1) :]
        root = container_of(rng, kind, nodes)
    return root


# ---- random lines
def some_step(rng, node):
    """A step from a node: mostly one that is there, or where a node may be put."""
    if node.kind in MAPS and rng.random() < 0.95:
        return some_key(rng)
    if node.kind == "list" and rng.random() < 0.95:
        return rng.randint(0, len(node.content) + (rng.random() < 0.2))
    return rng.choice((None, None, some_key(rng), rng.randint(0, 3), 2**64 - 1))


def some_path(rng, root, is_deep):
    """A path into a document, and the nodes along it."""
    path, nodes = [], [root]
    while nodes[-1].steps() and rng.random() < (0.998 if is_deep else 0.7):
        path.append(rng.choice(nodes[-1].steps()))
        # a deep document is mostly followed to the deepest of its nodes
        if is_deep and len(nodes[-1].steps()) > 1 and rng.random() < 0.95:
            path[-1] = max(nodes[-1].steps(), key=lambda step: nodes[-1].at(step).depth())
        nodes.append(nodes[-1].at(path[-1]))
    return path, nodes


def some_line(rng, root, is_deep):
    # most lines are about a node of a kind that fits
    for _ in range(6):
        verb = rng.choices(list(WEIGHTS), WEIGHTS.values())[0]
        path, nodes = some_path(rng, root, is_deep or verb == b"set")
        if any(node.kind in KINDS.get(verb, (node.kind,)) for node in nodes):
            break
    is_new = verb == b"insert" or verb == b"put" and rng.random() < 0.7
    if verb in KINDS and (is_new or verb != b"put" or not path) and rng.random() < 0.9:
        while path and nodes[-1].kind not in KINDS[verb]:
            path, nodes = path[:-1], nodes[:-1]
    if is_new or verb == b"put" and not path and rng.random() < 0.9:
        path = path + [some_step(rng, nodes[-1])]
    elif rng.random() < 0.06:
        path.insert(rng.randint(0, len(path)), some_step(rng, rng.choice(nodes)))
    line = verb
    if verb in (b"put", b"insert"):
        line += b" " + (head(some_leaf(rng)) if rng.random() < 0.5 else rng.choice(list(NEW_ROOTS.values())))
    elif verb == b"range":
        line += spelled_path([some_key(rng), some_key(rng)])
    elif verb == b"set":
        kinds, old = ("bool", "int", "text"), nodes[-1]
        leaf = some_leaf(rng, (old.kind,) if old.kind in kinds and rng.random() < 0.9 else kinds)
        if leaf.kind == old.kind == "text" and rng.random() < 0.7:
            leaf.content = bytes(rng.choices(b"ab \\\n", k=len(old.content)))
        line += b" " + head(leaf)
    line += spelled_path(path)
    if rng.random() < 0.03:
        return rng.choice(NONSENSE)
    if rng.random() < 0.03:
        at = rng.randint(0, len(line))
        return line[:at] + rng.choice((b"", b" ", b"\\", b"'", b"0", b"\xc3")) + line[at + rng.randint(0, 1) :]
    return line


# ---- sessions
class Session:
    """A random session: the text of its document, or the kind of a new root, its lines, their answers, and the text after them."""
    def __init__(self, seed, number):
        rng = random.Random(f"{seed}/{number}")
        self.number, is_deep = number, rng.random() < 0.12
        self.root_kind = rng.choice(list(NEW_ROOTS)) if rng.random() < 0.15 else None
        root = read_head(NEW_ROOTS[self.root_kind]) if self.root_kind else some_document(rng, is_deep)
        self.text, self.lines, self.answers = text_of(root), [], []
        for _ in range(rng.choice((0, 1, 10, 30, 60))):
            self.lines.append(some_line(rng, root, is_deep))
            self.answers.append(answer(root, self.lines[-1]))
        self.text_after = text_of(root)
        # the newline of the last line may be left out
        is_ended = self.lines and (self.lines[-1] == b"" or rng.random() < 0.9)
        self.input = b"\n".join(self.lines) + (b"\n" if is_ended else b"")


class Programs:
    """The programs, and the folder in which their files are made."""
    def __init__(self, cab, cab_show, cab_edit, folder):
        self.cab, self.cab_show, self.cab_edit, self.folder = cab, cab_show, cab_edit, pathlib.Path(folder)

    def build(self, text, name):
        """Builds the archive of a text, and returns its path."""
        text_file, archive = self.folder / f"{name}.txt", self.folder / name
        text_file.write_bytes(text)
        subprocess.run([self.cab, "build", text_file, archive], check=True, stdout=subprocess.DEVNULL)
        return archive

    def difference(self, session):
        """Runs a session: None if it goes as in the reference, else what differs."""
        archive = self.folder / str(session.number)
        if not session.root_kind:
            before = self.build(session.text, archive.name).stat()
        new = ["--new", session.root_kind] if session.root_kind else []
        ran = subprocess.run([self.cab_edit, *new, archive], input=session.input, capture_output=True)
        answers = ran.stdout.split(b"\n")[:-1]
        for number, (given, wanted) in enumerate(itertools.zip_longest(answers, session.answers, fillvalue=b"none"), 1):
            if given != wanted:
                return f"answer {number}: {shown(given)}\nreference: {shown(wanted)}\n{shown(ran.stderr)}"
        if ran.returncode or ran.stderr:
            return f"status {ran.returncode}: {shown(ran.stderr)}"
        if not session.root_kind and b"ok" not in answers and archive.stat().st_mtime_ns != before.st_mtime_ns:
            return "the file was replaced without an edit"
        built = self.build(session.text_after, f"{session.number}.built")
        text = subprocess.run([self.cab_show, archive], capture_output=True).stdout
        if text != session.text_after or archive.read_bytes() != built.read_bytes():
            return f"another archive:\n{shown(text)}\nreference:\n{shown(session.text_after)}"
        return None

    def refuses_what_is_there(self):
        """Whether no new archive is made in the place of a file, which stays."""
        archive = self.build(b"list 1\nint 5\n", "there")
        before = archive.read_bytes()
        ran = subprocess.run([self.cab_edit, "--new", "list", archive], input=b"put int 6 #0\n", capture_output=True)
        return ran.returncode != 0 and not ran.stdout and ran.stderr and archive.read_bytes() == before


def shown(text):
    return text.decode(errors="backslashreplace").rstrip("\n")


def main(cab, cab_show, cab_edit, sessions="2000", seed="1"):
    with tempfile.TemporaryDirectory() as folder, concurrent.futures.ThreadPoolExecutor(os.cpu_count()) as pool:
        programs = Programs(cab, cab_show, cab_edit, folder)
        if not programs.refuses_what_is_there():
            print("a new archive is made in the place of a file")
            return 1
        def run(number):
            session = Session(seed, number)
            return session, programs.difference(session)
        lines = 0
        for session, difference in pool.map(run, range(int(sessions))):
            lines += len(session.lines)
            if difference:
                pool.shutdown(cancel_futures=True)
                start = f"--new {session.root_kind}" if session.root_kind else shown(session.text)
                print(f"seed {seed}, session {session.number}:\n{start}\nlines:\n{shown(session.input)}\n{difference}")
                return 1
    print(f"{sessions} sessions, {lines} lines: all as the reference")
    return 0


if __name__ == "__main__":
    if not 4 <= len(sys.argv) <= 6:
        sys.exit(__doc__)
    sys.exit(main(*sys.argv[1:]))
