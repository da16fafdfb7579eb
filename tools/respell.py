#!/usr/bin/env python3
"""Brings the repository's own names to the spelling of today's Rattle, once, right after the kit's port.py.

usage: tools/respell.py     at the top of the repository

port.py respells a name of ours only where a library had it too. This does the rest, by text:
- a word that our .antt files declare (a definition, a lemma, a field, a constructor) goes to snake case: eqList-same is eq_list_same. What the check
  itself names (an answer's goal in a Proof.antt) stays as it is there;
- the edits of must-fail/ are written in the spelling of the files that they edit.
A name that would meet another is listed and stays, unless MEETS says what it is called. The tree is written only if nothing is left.
"""
import glob
import os
import re
import sys

WORD = re.compile(r'[^\s(){}.;,@"«»]+')
DECLARED = re.compile(r'(?m)^ *(?:(?:pub|abbrev|unfoldable) +)*([^\s(){}.;,@"«»:]+)((?: \{[^{}\n]*\})*) :(?!:)([^\n]*)')
FIELD = re.compile(r'(?m)^ +(?:pub )?([^\s(){}.;,@"«»:]+) :(?!:)')
RULESET = re.compile(r'(?m)^ *(?:pub )?ruleset(?: pub)? ([^\s(){}.;,@"«»]+)')
LIBRARIES = re.compile(r"\buse ((?:mathlib|native|lib|borrow|Prim|Rattle\.std|Rattle\.core)[\w.·◌]*)\.\{([^}]*)\}", re.S)
# Lemmas, fields and hypotheses that would meet the definition that they speak of.
MEETS = "rows-at table-of key-at bits-at held-at next-at seen-at set-at row-at in-table".split()
# The same, where port.py gave them the name already: the file, and the name.
MET = [
    ("compare/proofs/Comparing", "by_rows"),
    ("laws/proofs/Forming", "after_first"),
    ("layout/specs/Layout", "from_at"),
    ("storage/proofs/Forests", "rep_in"),
    ("storage/proofs/equiv/rep/Proof", "rep_in"),
    ("table/proofs/Admitting", "after_last"),
    ("table/proofs/Growing", "in_order"),
]


# A parameter of a Rust function, or a field: what a clause can name.
PARAMETER = re.compile(r"\b(?!let\b)(\w+): ")


def bound_words(code):
    """The words of a text that stand behind no dot and in no path."""
    code = re.sub(r"\buse [^\n{]*", "use ", code)
    return re.findall(r'(?<![^\s(){};,@"«»])[^\s(){}.;,@"«»]+', code)


def snake(name):
    words = re.sub(r"(?<=[a-z0-9])[A-Z]", lambda m: "_" + m[0].lower(), name)
    return words.replace("-", "_")


def is_ours(name):
    """A word with a hump or a dash in it, that is no operator and no type."""
    return bool(re.match(r"[a-z]", name)) and snake(name) != name and re.fullmatch(r"[A-Za-z0-9_'₀-₉ℕ-]+", name) is not None


def antt_files():
    return sorted(glob.glob("crates/*/specs/**/*.antt", recursive=True) + glob.glob("crates/*/proofs/**/*.antt", recursive=True))


def split_comments(text, mark):
    """Pieces of code and of comments, in turn; a comment runs from the mark to the end of its line."""
    return re.split(rf"((?<![^\s(){{}}.;,@])(?:{mark})[^\n]*)", text)


def turn_words(code, table):
    return WORD.sub(lambda m: table.get(m[0], m[0]), code)


def turn_comment(comment, table):
    """In a comment a word turns inside backticks, or where it has a hump."""
    spans = re.split(r"(`[^`\n]*`)", comment)
    humps = {a: b for a, b in table.items() if re.search(r"[a-z0-9][A-Z]", a)}
    return "".join(turn_words(s, table if k % 2 else humps) for k, s in enumerate(spans))


def turn(text, table, mark):
    return "".join(turn_comment(p, table) if k % 2 else turn_words(p, table) for k, p in enumerate(split_comments(text, mark)))


def rt_clauses(text, table):
    """In a .rt file: ghost items, clauses and comments; Rust has no such names, so a word with a hump or a dash is a word of a clause."""
    return turn(text, table, "//")


def answers_of(text):
    """What a Proof.antt declares for the check itself: an answer is of a type of the tie, and the proof's own name ends in spec."""
    kept = set()
    for m in DECLARED.finditer(text):
        if m[3].strip().startswith(("tie.", "goal.", "need.")) or m[1].endswith(("-spec", "_spec")) or "μ" in m[1]:
            kept.add(m[1])
    return kept


def imported(text):
    """The library's names that a text imports."""
    got = set()
    for m in LIBRARIES.finditer(text):
        for item in m[2].split(","):
            got.update(item.split()[:1])
            got.update(item.split()[-1:])
    return got


def names_of(texts):
    declared = set()
    for path, text in texts.items():
        code = "".join(split_comments(text, "--")[::2])
        kept = answers_of(code) if path.endswith("/Proof.antt") else set()
        for pattern in (DECLARED, FIELD, RULESET):
            declared.update(m[1] for m in pattern.finditer(code) if m[1] not in kept)
    return {n for n in declared if is_ours(n)}


def respell_names():
    texts = {p: open(p, encoding="utf-8").read() for p in antt_files()}
    sources = {p: open(p, encoding="utf-8").read() for p in sorted(glob.glob("crates/*/src/**/*.rt", recursive=True))}
    for path, name in MET:
        p = f"crates/{path}.antt"
        texts[p] = turn(texts[p], {name: name + "_lem"}, "--")
    table = {n: snake(n) + "_lem" * (n in MEETS) for n in names_of(texts)}
    back = {}
    for old, new in sorted(table.items()):
        # A lemma that would have its function's name gets _lem.
        if "-" in old and any("-" not in it and it != old for it, to in table.items() if to == new):
            table[old] = new + "_lem"
    met, back = [], {}
    for old, new in sorted(table.items()):
        if new in back:
            met.append(f"{old} and {back[new]}: both {new}")
        back[new] = old
    for p, text in list(texts.items()) + list(sources.items()):
        antt = p.endswith(".antt")
        code = "".join(split_comments(text, "--" if antt else "//")[::2])
        used = set(WORD.findall(code))
        bound = set(bound_words(code)) if antt else set(PARAMETER.findall(code))
        met += [f"{p}: {old}: {new} is there" for old, new in sorted(table.items()) if old in used and new in bound]
    out = {}
    for p, text in texts.items():
        library = imported(text) & set(table)
        here = {a: b for a, b in table.items() if a not in library and not (p.endswith("/Proof.antt") and a in answers_of(text))}
        used = set(WORD.findall(text))
        met += [f"{p}: {new} is imported from a library" for old, new in here.items() if old in used and new in imported(text)]
        out[p] = turn(text, here, "--")
    for p, text in sources.items():
        out[p] = rt_clauses(text, table)
    return table, met, out


# What port.py does in a text that it reads, for the lines of an edit: patterns, and names of the library.
LINES = [(r"_([^\w\s,{}();]+)_", r"◌\1◌"), (r"(?<=[\w)'′₀-₉]) \.(?=[a-z])", "."), (r"′", "'"), (r"\(([a-z][\w'₀-₉]*(?:\.[a-z][\w']*)+)\)", r"\1"), (r"Rattle·(\w+)·(specs|proofs)\.\2", r"Rattle.\1.\2")]
LIBRARY = {"getD": "get_or", "vec-len": "vec_len", "μ-loop": "decreases-loop", "Inv-loop": "invariant-loop", "needs": "rules"}


def edit_line(line, table, words):
    for pattern, new in LINES:
        line = re.sub(pattern, new, line)

    def word(m):
        w = m[0]
        new = table.get(w) or LIBRARY.get(w) or (snake(w) if is_ours(w) and snake(w) in words else w)
        return new

    return WORD.sub(word, line)


def respell_edits(table, out):
    """Each edit in the spelling of the file that it edits; those whose text does not stand there once."""
    left = []
    for p in sorted(glob.glob("crates/*/must-fail/*.edit")):
        crate = p.split("/must-fail/")[0]
        lines = open(p, encoding="utf-8").read().split("\n")
        new, text = [], ""
        for line in lines:
            head, colon, rest = line.partition(": ")
            if head == "file" and colon:
                target = f"{crate}/{rest.strip()}"
                text = out.get(target) or open(target, encoding="utf-8").read()
                words = set(WORD.findall(text))
            elif head in ("old", "new") and colon:
                rest = edit_line(rest, table, words)
                if head == "old":
                    old = rest
                    if text.count(rest) != 1:
                        left.append(f"{p}: {text.count(rest)} times: {rest}")
                elif text.count(old) == 1:
                    text = text.replace(old, rest)
                line = f"{head}: {rest}"
            new.append(line)
        out[p] = "\n".join(new)
    return left


def main():
    table, met, out = respell_names()
    if met:
        print("\n".join(met))
        print(f"respell: {len(met)} names meet another; nothing was written")
        return 1
    left = respell_edits(table, out)
    for p, text in out.items():
        with open(p, "w", encoding="utf-8") as f:
            f.write(text)
    print("".join(f"left: {it}\n" for it in left) + f"respell: {len(table)} names; {len(left)} edits left by hand")
    return 0


if __name__ == "__main__":
    sys.exit(main())
