#!/usr/bin/env python3
"""respell.py: brings the names of this repository's own definitions and lemmas to the spelling of today's Rattle: words in snake case (gate_value, not
gateValue), types and modules in camel case. Run it once at the repository's top, behind the kit's port.py. It goes by words: in files of .antt and .rt,
outside text in double quotes, each word that begins in lower case and has a capital behind a small letter or a digit; in must-fail edits likewise; in
pages each such word that those files had. Functions, exported names, texts and values have no such words. Five names that would then fall together with
another name of their file are moved out of the way first."""
import os
import re
import sys

WORD = re.compile(r"(?<![\w'₀-₉])[a-z][\w'₀-₉-]*")
TEXT = re.compile(r'"[^"\n]*"')
# The file, its own name that stands where a respelled one will, and its new name.
OWN = [
    ("op_cells/proofs/Made.antt", "made_word", "made-word"),
    ("text_symbols/proofs/TreeTable.antt", "words_are", "words-equal"),
    ("bench_session/proofs/LineSteps.antt", "last_line", "last-line"),
    ("theory_replacement/proofs/Loops.antt", "into_new", "into-new"),
    ("theory_cell_equivalence/proofs/Made.antt", "same_inputs", "same-inputs"),
]


def part(p):
    return re.sub(r"([a-z0-9₀-₉])([A-Z])", lambda m: m.group(1) + "_" + m.group(2).lower(), p) if p[:1].islower() else p


def respelled(word):
    return "-".join(part(p) for p in word.split("-"))


def outside_texts(change, text):
    """The text, changed but for what stands in double quotes."""
    out, at = [], 0
    for m in TEXT.finditer(text):
        out += [change(text[at : m.start()]), m.group(0)]
        at = m.end()
    return "".join(out + [change(text[at:])])


def files(top, endings):
    for folder, below, names in os.walk(top):
        below[:] = sorted(d for d in below if d not in ("out", "target", ".git"))
        for name in sorted(names):
            if name.endswith(endings):
                yield os.path.join(folder, name)


def rewrite(path, change):
    old = open(path, encoding="utf-8").read()
    new = change(old)
    if new != old:
        open(path, "w", encoding="utf-8").write(new)
    return new != old


def main():
    if not os.path.isfile("crates.txt"):
        sys.exit("respell: run it at the repository's top")
    changed = 0
    for path, old, new in OWN:
        word = re.compile(r"(?<![\w'.-])" + re.escape(old) + r"(?![\w'-])")
        rewrite(os.path.join("crates", path), lambda t: word.sub(new, t))
    ours = {}

    def note(m):
        w = m.group(0)
        ours[w] = respelled(w)
        return ours[w]

    for path in files("crates", (".antt", ".rt", ".edit")):
        changed += rewrite(path, lambda t: outside_texts(lambda s: WORD.sub(note, s), t))
    ours = {w: n for w, n in ours.items() if w != n}
    for path in [*files("docs", ".md"), *(f for f in sorted(os.listdir(".")) if f.endswith(".md"))]:
        changed += rewrite(path, lambda t: WORD.sub(lambda m: ours.get(m.group(0), m.group(0)), t))
    print(f"respell: {len(ours)} names, {changed} files")


main()
