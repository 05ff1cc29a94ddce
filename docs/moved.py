#!/usr/bin/env python3
"""moved.py FROM [TO]: what two commits have in crates/: the definitions, contracts, laws and proofs that were added, that were removed, that moved (an old
one whose text changed) and how many stayed. Another file or crate, and whether others may use it, is no change of text, and a name that differs
in `-`, `_` and capitals alone is still that name. TO is the working tree if it is not given."""
import io
import pathlib
import re
import subprocess
import sys
import tarfile
import tempfile
from collections import defaultdict

HEAD = re.compile(r"^( *)(?:(?:abbrev|unfoldable|pub) )*(?:(?:record|data) )?([^\s(){}=]+)((?: [({][^=]*?)?) :( |$)")
CLOSES = re.compile(r"^ *(?:pub )?(?:use|mod|infix[lr]?)\b")
MODULE = re.compile(r"^( *)module _ .*where$")


def plain(lines):
    return " ".join(" ".join(lines).split())


def declarations(text):
    """(name, statement, whole text) of each declaration; the parameters of a module belong to the statements in it"""
    found, modules, item = [], [], None
    for line in text.splitlines():
        line = re.sub(r"(^|\s)--.*", "", line).rstrip()
        if not line:
            continue
        indent = len(line) - len(line.lstrip())
        if item and indent > item["indent"]:
            item["lines"].append(line)
            continue
        module, head = MODULE.match(line), HEAD.match(line)
        if module or head or CLOSES.match(line) or (item and indent < item["indent"]):
            if item:
                found.append(item)
            item = None
            modules = [m for m in modules if m[0] < indent]
            if module:
                modules.append((indent, line.strip()))
            elif head and not CLOSES.match(line):
                item = {"name": head.group(2), "indent": indent, "lines": [m[1] for m in modules] + [line]}
        elif item:
            item["lines"].append(line)
    if item:
        found.append(item)
    for item in found:
        body = [i for i, line in enumerate(item["lines"]) if re.match(rf" {{{item['indent']}}}(unfolding\b|{re.escape(item['name'])}\b.* =)", line)]
        end = body[0] if body else len(item["lines"])
        item["lines"] = [re.sub(r"\bpub ", "", line) for line in item["lines"]]
        yield item["name"], plain(item["lines"][:end]), plain(item["lines"])


FN = re.compile(r'(pub (?:extern "C" )?|pub\(crate\) |)fn (\w+)(.*)$')


def contracts(text):
    """(name, open, signature and contract) of each function that has one: the line after a contract is a brace and nothing else"""
    lines = iter(re.sub(r" *//.*", "", text).splitlines())
    for line in lines:
        match = FN.match(line)
        if not match:
            continue
        head = [match.group(3)]
        while head[-1] != "{" and not (head[-1].endswith(("{", "}", ";")) and (len(head) == 1 or head[-1].startswith(")"))):
            head.append(next(lines))
        if head.pop() == "{":
            yield match.group(2), match.group(1).startswith("pub "), plain(head)


def collect(root):
    kinds = defaultdict(dict)
    for path in sorted(pathlib.Path(root, "crates").rglob("*")):
        parts = path.relative_to(root).parts
        if not path.is_file() or len(parts) < 4:
            continue
        crate, folder = parts[1], parts[2]
        place = "/".join(parts[1:])
        if path.suffix == ".rt" and folder == "src":
            for name, is_open, text in contracts(path.read_text()):
                kinds["contracts of open functions" if is_open else "contracts of inner functions"][crate, place, name] = text
        elif path.suffix == ".antt" and folder == "proofs" and len(parts) > 4:
            # a function's invariants and answers are one proof
            lines = [re.sub(r"(^|\s)--.*", "", line) for line in path.read_text().splitlines()]
            text = plain(line for line in lines if not line.startswith("use "))
            key = crate, "/".join(parts[1:-1]), parts[-2]
            kinds["proofs of functions"][key] = plain([text, kinds["proofs of functions"].get(key, "")])
        elif path.suffix == ".antt" and folder in ("specs", "proofs") and path.name != "Lib.antt":
            for name, statement, text in declarations(path.read_text()):
                if folder == "specs" and not name.startswith("example"):
                    kinds["definitions"][crate, place, name] = text
                else:
                    kinds["laws"][crate, place, name] = statement
                    kinds["proofs of laws"][crate, place, name] = text
    return kinds


def compare(old, new):
    """pairs of an old and a new one: by place and name, then by crate and name, then by name and text, then by crate and the name's letters"""
    old, new, moved, stayed = dict(old), dict(new), [], 0
    for key in list(new):
        if key in old:
            if old.pop(key) == new.pop(key):
                stayed += 1
            else:
                moved.append(key)
    for match in (lambda k, text: (k[0], k[2]), lambda k, text: (k[2], text), lambda k, text: (k[0], re.sub(r"[-_◌]", "", k[2]).lower())):
        left = defaultdict(list)
        for key, text in old.items():
            left[match(key, text)].append(key)
        for key in list(new):
            if left[match(key, new[key])]:
                if old.pop(left[match(key, new[key])].pop(0)) == new[key]:
                    stayed += 1
                else:
                    moved.append(key)
                del new[key]
    return sorted(new), sorted(old), sorted(moved), stayed


def show(title, keys):
    if keys:
        print(f"  {title}:")
    crates = defaultdict(list)
    for crate, _, name in keys:
        crates[crate].append(name)
    for crate, names in crates.items():
        print(f"    {crate}: {', '.join(names)}")


def main():
    if len(sys.argv) not in (2, 3):
        sys.exit(__doc__)
    top = subprocess.run(["git", "rev-parse", "--show-toplevel"], capture_output=True, text=True, check=True).stdout.strip()
    sides = []
    for commit in (sys.argv + [None])[1:3]:
        if commit is None:
            sides.append(collect(top))
            continue
        archive = subprocess.run(["git", "-C", top, "archive", commit, "crates"], capture_output=True, check=True).stdout
        with tempfile.TemporaryDirectory() as folder:
            with tarfile.open(fileobj=io.BytesIO(archive)) as files:
                files.extractall(folder, filter="data")
            sides.append(collect(folder))
    for kind in ("definitions", "contracts of open functions", "contracts of inner functions", "laws", "proofs of laws", "proofs of functions"):
        added, removed, moved, stayed = compare(sides[0][kind], sides[1][kind])
        print(f"{kind}: {len(added)} added, {len(removed)} removed, {len(moved)} moved, {stayed} stayed")
        if kind != "proofs of laws":  # else they are those of the laws above
            show("added", added)
            show("removed", removed)
        show("moved", moved)


main()
