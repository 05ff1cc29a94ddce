#!/usr/bin/env python3
"""Turns the repository's own camelCase definitions and lemmas into snake_case, after the kit's port.py, in the crates' sources, proofs and must-fail edits.

A name is turned where a .antt file declares it, or a name of which it is a part between dashes (`block_bytes-limit` is a law about `block_bytes`).
Functions in Rust spelling, exported names, strings and data keep theirs. Stops before it writes if two names would fall together."""
import pathlib
import re
import sys

DECLARED = re.compile(r"^ *(?:(?:abbrev|unfoldable|pub|record|data) )*([^\s(){}=:,]+)(?: [({].*?)? :(?: |$)", re.M)
WORD = re.compile(r"(?<![\w'])[a-z][a-z0-9]*(?:[A-Z][a-z0-9]*)+(?![\w'])")
STRING = re.compile(r'("(?:[^"\\\n]|\\.)*")')
# two lemmas would have the name of a definition; the files that name them
APART = {
    "crates/index/proofs/LookupCalls.antt": ("is_known", "known-here"),
    "crates/report/proofs/GrammarWrite.antt": ("lines_steps", "lines_text-steps"),
    "crates/report/proofs/Grammar.antt": ("lines_steps", "lines_text-steps"),
}


def snake(word):
    # the library's `getD`, which some laws are named after, is `get_or`
    if word == "getD":
        return "get_or"
    return re.sub(r"[A-Z]", lambda m: "_" + m.group().lower(), word)


def apart(place, text):
    name, to = APART.get(place, ("", ""))
    return re.sub(rf"(?<![\w'-]){name}(?![\w'-])", to, text) if name else text


def main():
    root = pathlib.Path(sys.argv[1] if len(sys.argv) > 1 else ".")
    files = [p for p in sorted(root.glob("crates/**/*")) if p.is_file() and p.suffix in (".antt", ".rt", ".edit") and "out" not in p.parts]
    before = {p: p.read_text(encoding="utf-8") for p in files}
    texts = {p: apart(p.relative_to(root).as_posix(), t) for p, t in before.items()}
    declared = {name for p, t in texts.items() if p.suffix == ".antt" for name in DECLARED.findall(re.sub(r"--.*", "", t))}
    parts = {part for name in declared for part in name.split("-")}
    turned = {part: snake(part) for part in parts if WORD.fullmatch(part)}
    respelled = {name: "-".join(turned.get(part, part) for part in name.split("-")) for name in declared}
    together = sorted(name for name, to in respelled.items() if to != name and to in declared)
    if together or len(set(turned.values())) < len(turned):
        sys.exit(f"snake_case: names would fall together: {together}")
    for p, text in texts.items():
        pieces = STRING.split(text) if p.suffix != ".antt" else [text]
        pieces[::2] = [WORD.sub(lambda m: turned.get(m.group(), m.group()), piece) for piece in pieces[::2]]
        if "".join(pieces) != before[p]:
            p.write_text("".join(pieces), encoding="utf-8")
    print(f"snake_case: {len(turned)} words in {len(files)} files")


main()
