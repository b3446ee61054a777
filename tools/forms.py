#!/usr/bin/env python3
"""Counts the places of docs/DESIGN-PASS.md in crates/*/src. Run it at the top of a checkout: python3 tools/forms.py [-v]

-v lists the places too. Points 2, 4, 6 and 7 are read as well: what these lines find is where reading begins.
"""
import glob
import re
import sys

LINES = {
    "1 answers by a number": r"-> Answer\b|\bnumber (?:!=|==) 0|(?:refused|decide_at)\(\s*[0-9]+,",
    "1 own options and results, a flag beside a value": r"pub (?:answer: Answer|ok: bool)|^    (?:None|Failed),$|-> Got\b",
    "2 rooms, a function for each size": r"fn [a-z_]*room(?:<[^>]*>)?\(",
    "2 answers as words, a function for each type": r"pub fn put_[a-z]+(?:<[^>]*>)?\((?:r|o): ",
    "2 a switch between two bodies by a bool parameter": r"^    (?:reverse|wired|checks|filled|circuit): bool,|\((?:reverse|wired|checks|filled|circuit): bool|, (?:wired|filled|checks): bool",
    "3 a while": r"^\s*(?:'[a-z]+: )?while ",
    "3 a for over an index that only reads": r"^\s*for [a-z] in [0-9a-z]+\.\.[a-z_]+\.len\(\)",
    "4 copying, filling and comparing by hand": r"slices::(?:copy|clear|set_all)|words::same|lines::is\(|fn (?:is_digit|capped|same|all|is|holds|clear|copy|set_all)\(",
    "6 an array lent by its start": r"&(?:mut )?[a-z_]+\[(?:0)?\.\.[a-z_0-9]+\]",
    "7 a chain of tests on a name": r"if is\(name|if lines::is\(",
}

GROUPS = [
    ("p", "n"), ("p", "n", "powers"), ("e", "n"), ("e", "m"), ("n", "l"), ("selectors", "labels"), ("witness", "publics"),
    ("prepared", "transcript"), ("beta", "gamma"), ("own", "wired"), ("list", "evaluations"), ("out", "at"), ("long", "due"),
]

FACTS = [r"Admissible p n", r"Points p n", r"\(e ≤ 1\)", r"\(n ≤ 1024\)", r"\(0 < p\)", r"length witness\.now ≡ witness_length n",
         r"length selectors\.now ≡ selectors_length n", r"Labels labels\.now"]

FUNCTION = re.compile(r"\bfn (\w+)(?:<[^>]*>)?\(([^)]*)\)", re.S)


def sources():
    for path in sorted(glob.glob("crates/*/src/**/*.rt", recursive=True)):
        with open(path) as file:
            yield path, file.read()


def main():
    verbose = "-v" in sys.argv
    texts = list(sources())
    for name, pattern in LINES.items():
        found = [(p, i + 1, t.strip()) for p, s in texts for i, t in enumerate(s.split("\n"))
                 if re.search(pattern, t) and not t.lstrip().startswith("//")]
        print(f"{len(found):4}  {name}")
        if verbose:
            for p, i, t in found:
                print(f"        {p}:{i}: {t[:110]}")
    functions = [(p, m.group(1), {x.split(":")[0].replace("mut ", "").strip() for x in m.group(2).split(",") if ":" in x})
                 for p, s in texts for m in FUNCTION.finditer(s)]
    for group in GROUPS:
        found = [f"{p}:{f}" for p, f, names in functions if set(group) <= names]
        print(f"{len(found):4}  5 functions with the parameters {', '.join(group)}")
        if verbose:
            for f in found:
                print(f"        {f}")
    for fact in FACTS:
        found = [(p, t.strip()) for p, s in texts for t in s.split("\n") if t.lstrip().startswith("requires") and re.search(fact, t)]
        print(f"{len(found):4}  5 clauses that ask for {fact.replace(chr(92), '')}")
    old = [p for p in glob.glob("crates/*/proofs/**/Proof.antt", recursive=True)]
    print(f"{len(old):4}  8 proofs that walk the code by hand (Proof.antt)")
    answers = [p for p in glob.glob("crates/*/proofs/**/Answers.antt", recursive=True)]
    print(f"{len(answers):4}  8 files of answers, {sum(len(open(p).read().splitlines()) for p in answers + old)} lines with those above")


main()
