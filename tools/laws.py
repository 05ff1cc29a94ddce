#!/usr/bin/env python3
"""laws.py OLD NEW: the laws of crates/*/proofs/*.antt in the folder OLD that are gone in the folder NEW, or have another statement there. All declarations count,
local ones too. A law is found again in its crate by its name, or anywhere by its whole statement. The parameters of a module belong to the statements in it."""
import collections
import pathlib
import re
import sys

HEAD = re.compile(r"^( *)(?:(?:abbrev|unfoldable|pub) )*(?:(?:record|data) )?([^\s(){}=]+)((?: [({][^=]*?)?) :( |$)")
OTHER = re.compile(r"^ *(?:pub )?(?:use|mod|infix[lr]?|unfolding)\b")


def declarations(text):
    """(name, statement) of each declaration"""
    text = re.sub(r"(^|[ \t])--.*", "", text, flags=re.M)
    # a module's parameters may stand on lines of their own
    text = re.sub(r"^ *module _ .*?\bwhere$", lambda m: re.sub(r"\s*\n\s*", " ", m.group()), text, flags=re.M | re.S)
    modules, item, found = [], None, []
    for line in text.splitlines():
        if not line.strip():
            continue
        indent = len(line) - len(line.lstrip())
        if item and indent > item[0]:
            item[2].append(line)
            continue
        item, modules = None, [m for m in modules if m[0] < indent]
        head = HEAD.match(line)
        if line.lstrip().startswith("module _ "):
            modules.append((indent, line.strip()))
        elif head and not OTHER.match(line):
            item = (indent, head.group(2), [m[1] for m in modules] + [line])
            found.append(item)
    for indent, name, lines in found:
        yield name, " ".join(re.sub(r"\bpub ", "", " ".join(lines)).split())


def laws(root):
    found = collections.defaultdict(list)
    for path in sorted(pathlib.Path(root).glob("crates/*/proofs/*.antt")):
        for name, statement in declarations(path.read_text(encoding="utf-8")):
            found[path.parts[-3], name].append((path.name, statement))
    return found


def main(old, new):
    old, new = laws(old), laws(new)
    anywhere = {statement for items in new.values() for _, statement in items}
    count = collections.Counter()
    for (crate, name), items in sorted(old.items()):
        for file, statement in items:
            there = [s for _, s in new.get((crate, name), [])]
            kind = "same" if statement in there or statement in anywhere else "changed" if there else "gone"
            count[kind] += 1
            if kind == "gone":
                print(f"gone: {crate} {file} {name}")
            elif kind == "changed":
                print(f"changed: {crate} {file} {name}\n  - {statement}\n  + {there[0]}")
    print(f"{sum(map(len, old.values()))} and {sum(map(len, new.values()))} declarations; {count['same']} the same, {count['changed']} changed, {count['gone']} gone")


main(*sys.argv[1:3])
