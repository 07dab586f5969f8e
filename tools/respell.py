#!/usr/bin/env python3
"""Respells the definitions and lemmas of this repository as today's Rattle spells names: words in snake case.

usage: tools/respell.py [--dry]     at the top of the repository, once, right after port.py

A name in camel case (slotWritten) or with a dash (agree-is) that a file of specs/ or a lemma file of proofs/ declares or
binds becomes slot_written, agree_is: in .antt files, in the clauses of .rt files, and in the paper edits of must-fail.
Types, modules, generated names (returns-2, x-requires) and what the kit declares keep their spelling. Functions of src/,
strings, inputs and outputs are left alone. It stops where two names would fall together.
"""

import os
import re
import sys

# what the kit declares and this repository only cites, though a name here has the same letters
KIT = set(
    "Array-Lawful Array-Makes Array-apart Array-whole Goes-dropped Goes-gave_slice WpFn-mono add-one and-true append-nil drop-cons drop-drop"
    " drop_of_length-le eq-eqb eqb-false eqb-true get_or-append get_or-append-add get_or-drop get_or-eq_default get_or-replicate get_or-set_other"
    " get_or-set_same get_or-take le-leb le-ltb leb-true length-append length-drop length-map length-replicate length-set length-take lt-leb lt-ltb"
    " ltb-false ltb-true mod-eq_of_lt not-false not-true one-mul paste-suc paste-zero pow-lt pow-suc sets-eq suc-le-suc take-length zero-le zero-lt-suc".split()
)
WORD = re.compile(r"[A-Za-z_\u0370-\u03ff\u2080-\u2089'][A-Za-z0-9_\u0370-\u03ff\u2080-\u2089'\u2115\u2124]*(?:-[A-Za-z0-9_\u0370-\u03ff\u2080-\u2089'\u2115\u2124]+)*")
MADE = re.compile(r"^(Need-|returns-|invariant-|decreases-|loop\d*-|overflow|cast-|add-result|array-copy|element-copy|struct-|mul-)|-requires(-\d+)?$")
COMMENT = re.compile(r"--(?= |$).*")


def files(root):
    for folder, dirs, names in os.walk(os.path.join(root, "crates")):
        dirs[:] = sorted(d for d in dirs if d not in ("out", ".git"))
        for n in sorted(names):
            if n.endswith((".antt", ".rt", ".edit")):
                yield os.path.join(folder, n)


def read(path):
    with open(path, encoding="utf-8") as f:
        return f.read()


def lemma_file(path):
    return path.endswith(".antt") and os.path.basename(path) not in ("Proof.antt", "Invariants.antt", "Answers.antt")


def old_style(word):
    if word in KIT or MADE.search(word) or word[0].isupper():
        return False
    return "-" in word or re.search(r"[A-Z]", word) is not None


def respelt(word):
    word = word.replace("-", "_")
    return re.sub(r"(?<=[a-z0-9])([A-Z])", lambda m: "_" + m.group(1).lower(), word)


def words_of(text):
    return WORD.findall(COMMENT.sub("", text))


def table(root):
    turned, kept = {}, set()
    for path in files(root):
        if not path.endswith(".antt"):
            continue
        for w in words_of(read(path)):
            if old_style(w) and (lemma_file(path) or w.endswith("-spec")):
                turned[w] = respelt(w)
            else:
                kept.add(w)
    return turned, kept


def functions(root):
    """The functions of src/: a definition that says what one returns has its name, as in the library."""
    found = set()
    for path in files(root):
        if path.endswith(".rt"):
            found.update(re.findall(r"\bfn (\w+)", read(path)))
    return found


def clash(turned, kept):
    """Names that would fall together: two old ones, or an old one with a name that stands already."""
    back = {}
    for old, new in sorted(turned.items()):
        back.setdefault(new, []).append(old)
    found = [(new, olds) for new, olds in back.items() if len(olds) > 1]
    found += [(new, olds + [new + " (stands)"]) for new, olds in back.items() if new in kept]
    return found


# Where two names fall together, or one falls together with a field, a parameter or a function's module: the other word for it.
APART = {
    "bad-header": "bad_header_lem",
    "bad-interface": "bad_interface_lem",
    "four-of": "four_of_lem",
    "lowest-closed": "lowest_closed_lem",
    "oldest-taken": "oldest_taken_lem",
    "resumed-on": "resumed_on_lem",
    "at-most-four": "at_most_four_lem",
    "Best-of": "BestOf",
    "get_d_part": "get_or_part",
    "getD-before": "get_or_before",
    "getD-behind": "get_or_behind",
    "getD-copies": "get_or_copies",
    "getD-else": "get_or_else",
    "getD-in": "get_or_in",
    "getD-second": "get_or_second",
}


def turn_words(text, turned):
    return WORD.sub(lambda m: turned.get(m.group(0), m.group(0)), text)


def turn_antt(text, turned):
    out = []
    for line in text.split("\n"):
        m = COMMENT.search(line)
        code, note = (line[: m.start()], line[m.start() :]) if m else (line, "")
        # in prose a name in camel case is a name, a word with a dash may be English
        out.append(turn_words(code, turned) + turn_words(note, {k: v for k, v in turned.items() if "-" not in k}))
    return "\n".join(out)


def turn_rt(text, turned):
    camel = {k: v for k, v in turned.items() if "-" not in k}
    out, inside = [], 0
    for line in text.split("\n"):
        ghost = inside > 0 or re.match(r"\s*(ghost|requires|ensures)\b", line)
        if ghost:
            inside += line.count("{") - line.count("}")
            inside = max(inside, 0)
            line = turn_words(line, turned)
        elif "//" in line:
            at = line.index("//")
            line = line[:at] + turn_words(line[at:], camel)
        out.append(line)
    return "\n".join(out)


def main():
    root = os.getcwd()
    turned, kept = table(root)
    turned.update(APART)
    found = clash(turned, kept - functions(root) - set(APART.values()))
    for new, olds in found:
        print(f"falls together: {new}: {', '.join(olds)}")
    if "--dry" in sys.argv:
        print(len(turned), "names")
        return
    if found:
        sys.exit("respell: nothing was changed")
    for path in files(root):
        text = read(path)
        if path.endswith(".antt"):
            new = turn_antt(text, turned)
        elif path.endswith(".rt"):
            new = turn_rt(text, turned)
        elif re.search(r"^file: specs/", text, re.M):
            new = turn_words(text, turned)
        else:
            new = text
        if new != text:
            with open(path, "w", encoding="utf-8") as f:
                f.write(new)
    print(len(turned), "names")


main()
