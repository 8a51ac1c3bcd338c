#!/usr/bin/env python3
"""Brings the repository's own definitions and lemmas to today's spelling, after /opt/rattle/port/port.py: words in snake case.

usage: python3 tools/respell.py [FOLDER]      once, at the top of a checkout (or of FOLDER) in which port.py ran

- A name that begins with a small letter and has capitals in it is a word: `readWhole` becomes `read_whole`.
- A word of specs/ whose parts a dash joins gets underscores, and so do the parts of an operator. One whose new name another definition has
  keeps its dash: a constructor `app-app` stands beside the function `app_app`, as a lemma does that is named after a definition.
- Nine local names would fall together with a definition. port.py gave them an underscore; they get their dash back.

Functions of src/ have their names: a clause never names one, so a definition may be spelled as a function is. Names that Rust, C, strings, inputs
and outputs have are not touched: a clause's names and the text of .antt files are all that has capitals so.
"""
import os
import re
import sys

WORD = re.compile(r"(?<![0-9A-Za-z_'])[A-Za-z_][A-Za-z0-9_']*(?:-[A-Za-z0-9_']+)*")
HEX = re.compile(r"x[0-9A-F]+$")

# Words of specs/ whose new name no other definition has.
DASHED = """
a-bool a-chunk a-cut a-node a-question a-step-to a-value adds-up answer-and-store application-head at-rule attr-left attr-null attr-right
attribute-command attribute-declared attribute-head attribute-of attribute-part attributes-are attributes-bound base-literal by-budget
by-counted by-kept by-overflow by-step by-writing cache-left cond-bool cond-left counts-one deep-forwards due-inside echo-int end-command
ending-is ends-or-circle ends-value ends-without false-literal figure-closed figure-command figure-fits figure-part five-kept for-ever
forward-command forward-of front-noted function-literal goes-counted goes-writing highest-int if-head if-then-else in-argument in-circle
in-condition in-function in-node in-parameter index-length int-ends int-kept is-value kept-are kept-typed kind-bound kinds-are kinds-bound
lent-kept lent-stores links-length lower-attribute lower-node lowest-int memory-length next-of-null no-command no-expression no-head no-null
node-after node-bound node-command node-declared node-entries node-literal node-part nodes-bound nodes-count none-by none-value not-kept
notes-length null-kept null-literal occurrence-in old-dumps on-form on-forward on-if on-left on-node on-parameter on-right on-skip
one-counted outcome-at parameter-head past-writing piece-fits refuses-codes refuses-lent refuses-store rows-LF rule-command rule-part
steps-are steps-to store-ready stores-left takes-second tallies-L the-parameter this-head to-highest true-literal types-bound unit-literal
wide-kept wrong-stores at-offset at-place then-check followed-by
""".split()

# Local names that are spelled as a definition is spelled now.
LOCAL = "frame_row kept_by kept_in read_next same_key value_in word_row is_open is_word".split()


def snake(word):
    return re.sub(r"(?<=[a-z0-9'])([A-Z]+)", lambda m: "_" + m.group(1).lower(), word)


def respelled(text, path):
    antt = path.endswith(".antt")

    def one(m):
        word = m.group(0)
        before = text[: m.start()]
        if antt and word in LOCAL and not before.endswith("proofs.") and f"/proofs/{word}/" not in path:
            return word.replace("_", "-")
        if HEX.match(word) or not word[0].islower():
            return word
        if word in DASHED:
            word = word.replace("-", "_")
        return snake(word)

    return WORD.sub(one, text)


def main(argv):
    root = argv[0] if argv else "."
    turned = set()
    for folder, dirs, files in os.walk(os.path.join(root, "crates")):
        dirs[:] = [d for d in dirs if d not in ("out", "data", "must-fail")]
        for name in files:
            if not name.endswith((".rt", ".antt")):
                continue
            path = os.path.join(folder, name)
            with open(path, encoding="utf-8") as f:
                text = f.read()
            new = respelled(text, path)
            if new != text:
                turned |= {w for w in WORD.findall(text) if w[0].islower() and respelled(w, "x.antt") != w and w not in LOCAL}
                with open(path, "w", encoding="utf-8") as f:
                    f.write(new)
    # The pages name definitions between backquotes.
    pages = [os.path.join(root, p) for p in ("README.md", "CONTRIBUTING.md", "CHANGELOG.md")]
    for folder, dirs, files in os.walk(os.path.join(root, "docs")):
        pages += [os.path.join(folder, f) for f in files if f.endswith(".md")]
    for path in filter(os.path.exists, pages):
        with open(path, encoding="utf-8") as f:
            text = f.read()
        new = re.sub(r"`[^`\n]*`", lambda m: WORD.sub(lambda w: respelled(w.group(0), "x.antt") if w.group(0) in turned else w.group(0), m.group(0)), text)
        if new != text:
            with open(path, "w", encoding="utf-8") as f:
                f.write(new)
    print(f"{len(turned)} names turned")


if __name__ == "__main__":
    main(sys.argv[1:])
