#!/usr/bin/env python3
"""Lists lemmas that say the same in several files: doubled_laws.py [CRATE ..], from the repository's root.

Of each lemma of specs/ and proofs/ the statement is taken with its variables named by their order, so that only what they are called may
differ. Where crates are named, a statement is told that stands in one of them. What stands twice can be a public law of the lower crate,
which the upper one cites. (Fields of records, and answers to goals, are passed over.)
"""
import collections, pathlib, re, sys

LEMMA = re.compile(r"^( *)(?:(?:abbrev|noninst|inst|unfoldable) )*(?:pub )?([a-z][\w'-]*) : (.*(?:\n\1 +(?:→|\(|≡|∷|\+\+|×|\)).*)*)", re.M)
BOUND = re.compile(r"[({]([A-Za-z][\w' ]*?) : ")


def statement(text):
    """A statement on one line, its bound variables numbered, and names without the modules that they stand in."""
    text, names = " ".join(text.split()), []
    for group in BOUND.findall(text):
        names += [name for name in group.split() if name not in names]
    for number, name in enumerate(names):
        text = re.sub(rf"(?<![\w'.-]){re.escape(name)}(?![\w'-])", f"#{number}", text)
    return re.sub(r"(\w+\.)+(\w)", r"\2", text).translate(str.maketrans("{}", "()"))


def lemmas(root):
    for path in sorted(root.glob("crates/*/*/**/*.antt")):
        parts = path.relative_to(root).parts
        if parts[2] not in ("specs", "proofs") or path.name in ("Answers.antt", "Invariants.antt", "Proof.antt"):
            continue
        text = re.sub(r"--.*", "", path.read_text())
        records = [(it.start(), it.end()) for it in re.finditer(r"^ *(?:pub )?record .*where\n(?: +.*\n)*", text, re.M)]
        for found in LEMMA.finditer(text):
            if not any(start <= found.start() < end for start, end in records):
                yield statement(found[3]), parts[1], "/".join(parts[1:]), found[2]


def main():
    asked, places = sys.argv[1:], collections.defaultdict(list)
    for said, crate, path, name in lemmas(pathlib.Path(".")):
        if len(said) > 25 and "≡" in said:
            places[said].append((crate, path, name))
    count = 0
    for said, where in sorted(places.items(), key=lambda it: -len(it[1])):
        if len({path for _, path, _ in where}) > 1 and (not asked or any(crate in asked for crate, _, _ in where)):
            count += 1
            print(said if len(said) <= 120 else said[:119] + "…")
            for _, path, name in where:
                print(f"    {path} {name}")
    print(f"{count} statements stand in several files")


if __name__ == "__main__":
    main()
