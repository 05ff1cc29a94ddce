#!/usr/bin/env python3
"""places.py [FOLDER]: counts, in the crates' src/ of a checkout (this one, if none is given), the places of each point of docs/DESIGN-PASS.md, and lists
them with -v. Ghost clauses, comments and tests do not count."""
import collections
import pathlib
import re
import sys

REFUSAL_STRUCTS = "Answer|Number|Listed|PlaceAnswer|NearestAnswer|IndexRead|Run|Front|Steps|Digits|Value|Line|Lines|Judged|Step"
CONSTANTS = "TOO_LONG|CUT_SHORT|EMPTY_RUN|RUN_ORDER|VALUE_ORDER|ODD_WORDS|NO_ROW|STEP_KIND|OTHER_DIRECTORY|NO_ROOM"


def code(path):
    """(line number, line) of what is neither comment, ghost clause nor test"""
    for n, line in enumerate(path.read_text().splitlines(), 1):
        if line.startswith("mod tests"):
            return
        text = re.sub(r"//.*", "", line)
        if not re.match(r"\s*(ghost |requires|ensures|invariant|decreases)", text) and text.strip():
            yield n, text


def functions(path):
    """(line number, signature, body) of each function"""
    lines, at = list(code(path)), 0
    while at < len(lines):
        if re.match(r"\s*(pub(\(crate\))? )?(extern \"C\" )?fn ", lines[at][1]):
            indent = len(lines[at][1]) - len(lines[at][1].lstrip())
            end = at
            while end + 1 < len(lines) and lines[end][1].rstrip() != " " * indent + "}":
                end += 1
            text = " ".join(t.strip() for _, t in lines[at:end + 1])
            head, _, body = text.partition("{")
            yield lines[at][0], head.strip(), body
            at = end
        at += 1


def shape(body):
    """the body's tokens, names and numbers replaced by the order in which they come"""
    names = {}
    return " ".join(str(names.setdefault(t, len(names))) if re.match(r"\w", t) else t for t in re.findall(r"\w+|[^\w\s]", body))


def main(args):
    folder = pathlib.Path(next((a for a in args if a != "-v"), "."))
    files = sorted(folder.glob("crates/*/src/**/*.rt"))
    found = collections.defaultdict(list)
    shapes, facts = collections.defaultdict(list), collections.Counter()
    for path in files:
        name = str(path.relative_to(folder / "crates"))
        export = name.startswith("press/")
        for n, text in code(path):
            where = f"{name}:{n}: {text.strip()}"
            if re.search(rf"\b({CONSTANTS})\b", text) or re.search(r"if \w+(\.\w+)* != 0 \{", text):
                found["1 refusals as numbers"].append(where)
            if re.search(r"\bwhile\b", text):
                found["3 while loops"].append(where)
            if re.search(r"\b(lesser|greater|at_most)\(", text) and "fn " not in text:
                found["4 order by hand"].append(where)
            if re.search(r"&(mut )?\w+(\.\w+)?\[\.\.\w*len\w*\]", text):
                found["6 buffers with a length beside them"].append(where)
        for n, head, body in functions(path):
            where = f"{name}:{n}: {head}"
            if not export and re.search(rf"-> ({REFUSAL_STRUCTS})\b", head):
                found["1 a flag or refusal beside a value"].append(where)
            if re.search(r"\b\w+: (bool|u8)\b|\b(table|kind|width): ", head) and not export:
                found["7 a switch among the parameters"].append(where)
            tokens = shape(body)
            if len(tokens.split()) >= 40 and not export:
                shapes[tokens].append(where)
        for clause in re.findall(r"requires (?:\w+ )?\{ (.*?) \}", path.read_text()):
            facts[re.sub(r"\b(out|bits|runs|words|index|s|ws)\b", "_", clause)] += 1
    for group in shapes.values():
        if len(group) > 1:
            found["2 functions alike but for names"] += group
    for clause, times in facts.items():
        if times >= 3:
            found["5 a fact in three or more contracts"].append(f"{times} times: {clause}")
    proofs = [p for p in folder.glob("crates/*/proofs/**/*.antt")]
    answers = sum(len(re.findall(r"^pub \S+ ?:\n? *goal\.", p.read_text(), flags=re.M)) for p in proofs if p.name == "Answers.antt")
    for key in sorted(found):
        print(f"{key}: {len(found[key])}")
        if "-v" in args:
            print("".join(f"  {x}\n" for x in found[key]), end="")
    print(f"8 answers: {answers}")
    print(f"8 lines of proofs: {sum(len(p.read_text().splitlines()) for p in proofs)}")
    print(f"lines of src: {sum(len(p.read_text().splitlines()) for p in files)}")


main(sys.argv[1:])
