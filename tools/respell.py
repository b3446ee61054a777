#!/usr/bin/env python3
"""Spells the repository's own definitions and lemmas as Rattle does today: words in snake case, a dash only where it joins two words of the
definitions, as in `length-tab`. Types, facts and modules keep their capitals. Functions of src/, strings, inputs and outputs are not touched.

usage: python3 tools/respell.py [--list]     at the top of the repository, once; --list prints the table and changes nothing
"""
import glob
import re
import sys

WORD = re.compile(r'[^\s(){}.;,@"«»]+')
HEAD = re.compile(r"^(abbrev |unfoldable )?(?:pub )?(?:data |record |ruleset )?([^\s:{}();.=]+) *(?=[\s({:])[^\n]*?:", re.M)
FIELD = re.compile(r"^ +(?:pub )?([^\s:{}();.=λ]+) *: ", re.M)
# words of the library's functions, which a dash may join to another
STD = set("length append add mul sub pow mod set take drop zero one suc cons map replicate get_or All lt le eq div".split())
# a plain word never joins, though a definition may have its name
PLAIN = set("of is at in on as to by or and not same one two three none first last next all some ext end is same_of".split())


def declaring():
    return sorted(glob.glob("crates/*/specs/**/*.antt", recursive=True)) + sorted(glob.glob("crates/*/proofs/*.antt"))


def snake(word):
    word = re.sub(r"\bgetD\b", "get_or", word)
    word = re.sub(r"(?<=[a-z0-9])([A-Z])", lambda m: "_" + m[1].lower(), word)
    return word.replace("′", "'")


def names():
    """the names that the repository declares, and those of them that are definitions"""
    every, words = set(), set(STD)
    for path in declaring():
        text = re.sub(r"--[^\n]*", "", open(path, encoding="utf-8").read())
        for m in HEAD.finditer(text):
            every.add(m[2])
            if m[1]:
                words.add(snake(m[2]) if m[2][0].islower() else m[2])
        for m in FIELD.finditer(text):
            every.add(m[1])
    return every, words


def spelled(name, words):
    if name[0].isupper() and "-" not in name:
        return name
    parts = name.split("-")
    parts = [p if p[:1].isupper() else snake(p) for p in parts]
    if "" in parts:
        return name
    out = parts[0]
    for left, right in zip(parts, parts[1:]):
        joins = left in words and right in words and right not in PLAIN and left not in PLAIN
        # numbers stay apart by a dash, and so do capitals, which are words of the definitions
        joins = joins or (left[-1].isdigit() and right[0].isdigit())
        out += ("-" if joins else "_") + right
    return out


# definitions inside a module's block, which the patterns above pass over
INSIDE = """subP ofOne ofTwo ofPair evaluationsOf mixtureOf openingOf openingVerdict lentListReasons openingReasons openReasons checkReasons gateIdentity
sheetLine ofWitness gateTest startTest stepTest gateHere badStart lentTest tooGreat startIdentity stepIdentity rightX onRows
power-rule root-1024""".split()


def table():
    every, words = names()
    every |= set(INSIDE)
    rows = {}
    for name in every:
        new = spelled(name, words)
        if new != name:
            rows[name] = new
    return apart(rows, every), every


def apart(rows, every):
    """a lemma or a field that would have the name of a definition gets _lem"""
    definitions = {new for old, new in rows.items() if re.search(r"[a-z0-9][A-Z]", old) and "-" not in old} | {n for n in every if n in ("rows_from", "start_at")}
    for name in sorted(every):
        new = rows.get(name, name)
        camel = re.search(r"[a-z0-9][A-Z]", name) and "-" not in name
        if new.replace("-", "_") in definitions and not camel and name not in ("rows_from", "start_at"):
            rows[name] = new.replace("-", "_") + "_lem"
    return rows


def turn_code(text, rows, skip):
    def one(m):
        word = m[0]
        if word not in rows:
            return word
        before = text[: m.start()]
        # in the proof of a function: a name that Rattle makes
        if skip and word == word.lower() and (before.endswith(".") or word in rows and "-" not in word):
            return word
        return rows[word]

    return WORD.sub(one, text)


PROSE = re.compile(r"[\w'◌-]+")
# the scope's own symbols, which stay in comments and pages
SYMBOLS = {"qL", "qR", "qO", "qM", "qC"}


def turn_prose(text, rows, dashed):
    """a comment or a page: names in capitals-and-small letters everywhere, names with dashes where `dashed` says so"""
    return PROSE.sub(lambda m: rows.get(m[0], m[0]) if m[0] not in SYMBOLS and ("-" not in m[0] or dashed) else m[0], text)


def turn_comment(text, rows):
    text = re.sub(r"`[^`\n]*`", lambda m: turn_prose(m[0], rows, True), text)
    text = re.sub(r"^(-- |// )([^\s]+)(?=  )", lambda m: m[1] + turn_prose(m[2], rows, True), text)
    return turn_prose(text, rows, False)


def turn_antt(text, rows, skip):
    out = []
    for line in text.split("\n"):
        at = re.search(r"(?:^|(?<=\s))--(?=\s|$)", line)
        code, comment = (line[: at.start()], line[at.start() :]) if at else (line, "")
        quiet = re.split(r'("(?:\\.|[^"\\])*")', code)
        code = "".join(q if i % 2 else turn_code(q, rows, skip) for i, q in enumerate(quiet))
        out.append(code + turn_comment(comment, rows))
    return "\n".join(out)


def turn_rt(text, rows):
    out = []
    for line in text.split("\n"):
        at = re.search(r"//", line)
        code, comment = (line[: at.start()], line[at.start() :]) if at else (line, "")
        quiet = re.split(r'("(?:\\.|[^"\\])*")', code)
        code = "".join(q if i % 2 else turn_code(q, rows, False) for i, q in enumerate(quiet))
        out.append(code + turn_comment(comment, rows))
    return "\n".join(out)


def turn_page(text, rows):
    return re.sub(r"`[^`\n]*`", lambda m: turn_prose(m[0], rows, True), text)


def main():
    rows, every = table()
    back = {}
    for old, new in sorted(rows.items()):
        back.setdefault(new, []).append(old)
    for new, olds in sorted(back.items()):
        if len(olds) > 1 or new in every:
            print("falls together:", new, olds, "declared" if new in every else "")
    if "--list" in sys.argv:
        for old, new in sorted(rows.items()):
            print(old, new)
        return
    plain = {o: n for o, n in rows.items()}
    for path in sorted(glob.glob("crates/**/*.antt", recursive=True)):
        turn(path, lambda t: turn_antt(t, plain, path.count("/") > 3 and "/proofs/" in path))
    # in Rust's text a name without a capital or a dash may be Rust's own
    rust = {o: n for o, n in rows.items() if o != o.lower() or "-" in o}
    for path in sorted(glob.glob("crates/*/src/**/*.rt", recursive=True)):
        turn(path, lambda t: turn_rt(t, rust))
    for path in sorted(glob.glob("crates/*/must-fail/*.edit")):
        turn(path, lambda t: turn_rt(t, rust))
    for path in ["README.md"] + sorted(glob.glob("docs/**/*.md", recursive=True)):
        turn(path, lambda t: turn_page(t, rust))


def turn(path, how):
    old = open(path, encoding="utf-8").read()
    new = how(old)
    if new != old:
        with open(path, "w", encoding="utf-8") as f:
            f.write(new)


if __name__ == "__main__":
    main()
