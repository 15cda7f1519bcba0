#!/usr/bin/env python3
"""Respells the definitions and lemmas of crates/: words in snake case, facts in camel case.

Run it once, at the top, right after the kit's own port.py. It renames what specs/ and proofs/ define,
record fields included, wherever crates/ and the pages cite it. Functions of src/, the names that Rattle
makes (`returns-in-Ok`), the kit's names, strings, inputs and outputs stay as they are.
"""
import glob
import re
import sys

WORD = r"[^\s(){}\[\],.;:λ⌜⌝\"`|]+"
TOP = re.compile(r"^(?:abbrev |unfoldable |pub |record |data )*(" + WORD + r")\s*(?:[({].*)?:(?:\s|$)")
INNER = re.compile(r"^\s+(?:pub )?(" + WORD + r") : ")
TOKEN = re.compile(r"(?<![^\s(){}\[\],.;:λ⌜⌝\"`|])(" + WORD + r")")
# Names that Rattle makes for goals and calls: an answer file defines them, nobody chose them.
MADE = re.compile(r"(returns|loop|invariant|decreases|overflow|bounds|in|if|drops|casts)[-_]|.*-requires(-\d+)?$")
# Names whose plain respelling is another name in the same file.
OTHERWISE = {
    "bit-and": "bit_of_and",
    "bit-or": "bit_of_or",
    "bit-xor": "bit_of_xor",
    "put-mid": "put_mid_written",
    # These two look as if Rattle had made them.
    "in-first": "in_first",
    "in-second": "in_second",
}
PAGES = ["README.md", *sorted(glob.glob("docs/*.md"))]


def new_name(name):
    if name in OTHERWISE:
        return OTHERWISE[name]
    if "-" not in name or not re.match(r"[A-Za-z]", name):
        return name
    parts = name.split("-")
    if name[0].isupper():
        return parts[0] + "".join(part[0].upper() + part[1:] for part in parts[1:])
    return "_".join(parts)


def antt_files():
    for kind in ("specs", "proofs"):
        yield from sorted(glob.glob(f"crates/*/{kind}/**/*.antt", recursive=True))


def own_names():
    names = {}
    for path in antt_files():
        answers = path.count("/") > 3
        for line in open(path, encoding="utf-8"):
            if not line.strip() or line.startswith(("--", "use ", "pub use ", "mod ", "pub mod ")):
                continue
            top = TOP.match(line)
            if top and (top[1] in OTHERWISE or not (answers and MADE.match(top[1]))):
                names[top[1]] = new_name(top[1])
            # a record's field, or a lemma of a section
            inner = INNER.match(line)
            if inner:
                names[inner[1]] = new_name(inner[1])
    return {old: new for old, new in names.items() if old != new}


def respell(text, names, comment, pages):
    out = []
    for line in text.split("\n"):
        if pages or line.lstrip().startswith(comment):
            line = re.sub(r"`([^`]*)`", lambda m: "`" + put(m[1], names) + "`", line)
        else:
            # strings keep their words
            pieces = re.split(r'("(?:[^"\\]|\\.)*")', line)
            line = "".join(p if p.startswith('"') else put(p, names) for p in pieces)
        out.append(line)
    return "\n".join(out)


def put(piece, names):
    return TOKEN.sub(lambda m: names.get(m[1], m[1]), piece)


def main():
    names = own_names()
    targets = {}
    for old, new in names.items():
        targets.setdefault(new, []).append(old)
    texts = {p: open(p, encoding="utf-8", newline="").read() for p in antt_files()}
    for new, olds in targets.items():
        if len(olds) > 1:
            print(f"two names fall together: {olds} -> {new}")
        for path, text in texts.items():
            words = set(TOKEN.findall(text))
            if new in words and words & set(olds):
                print(f"{path}: has {new} beside {olds}")
    for path in [*texts, *sorted(glob.glob("crates/*/src/**/*.rt", recursive=True)), *PAGES]:
        text = open(path, encoding="utf-8", newline="").read()
        comment = "//" if path.endswith(".rt") else "--"
        done = respell(text, names, comment, path.endswith(".md"))
        if done != text:
            with open(path, "w", encoding="utf-8", newline="") as f:
                f.write(done)
    print(f"{len(names)} names respelled")
    return 0


sys.exit(main())
