#!/usr/bin/env python3
"""Brings the names of this repository's own definitions and lemmas to today's spelling: words in snake case.

usage: python3 tools/respell.py        once, at the top of the repository, right after port.py

A name that a file of specs/ declares, of a function, a lemma, a field or a constructor, and that begins with a small letter loses its dashes and humps:
`edgeWord` is `edge_word`, `may-turn` is `may_turn`. Where two names would fall together, the one that has a dash gets `_lem`. It prints those.
It reads whole words, and turns them in specs/, proofs/, src/ and must-fail/, and in README.md and docs/ between backticks. In comments it turns a word
between backticks, a word with a hump, and the first words of a line of a list.
"""
import os
import re

BREAK = r"[\s(){}\[\];,.`]"
WORD = re.compile(r"[^\s(){}\[\];,.`]+")
PLAIN = re.compile(r"[a-z][-A-Za-z0-9_'?₀₁₂₃₄₅₆₇₈₉ℤ]*$")
TOP = re.compile(r"(?:abbrev )?(?:pub )?(?:abbrev )?(?:unfoldable )?(?:pub )?([^\s(){}\[\];,.:`]+) :(?:\s|$)")
FIELD = re.compile(r"\s+(?:abbrev )?(?:pub )?(?:abbrev )?(?:unfoldable )?([^\s(){}\[\];,.:`]+) :\s")
# names that dashes are kept for: none of them is declared here, but a field could be called so
KEEP = set()


def tree(top, *endings):
    for folder, dirs, files in os.walk(top):
        dirs[:] = sorted(d for d in dirs if d not in ("out", ".git"))
        for f in sorted(files):
            if f.endswith(endings):
                yield os.path.join(folder, f)


def snake(name):
    name = name.replace("-", "_")
    name = re.sub(r"([a-z0-9])([A-Zℤ])", lambda m: m[1] + "_" + (m[2].lower() if m[2] != "ℤ" else "ℤ"), name)
    return re.sub(r"([A-Z])(?=$|_)", lambda m: m[1].lower(), name)


def declared():
    names = set()
    for path in tree("crates", ".antt"):
        if "/specs/" not in path:
            continue
        for line in open(path, encoding="utf-8"):
            for form in (TOP, FIELD):
                m = form.match(line)
                if m:
                    names.add(m[1])
    return names


def table():
    names = declared()
    new = {n: snake(n) for n in names if PLAIN.match(n) and n not in KEEP}
    taken = {}
    # a word with humps, or with nothing to turn, keeps the plain name; one with a dash gives way
    for n in sorted(new, key=lambda n: ("-" in n, new[n] == n, n)):
        if new[n] in taken:
            print(f"fall together: {taken[new[n]]}, {n}: {n} is {new[n]}_lem")
            new[n] += "_lem"
        assert new[n] not in taken, n
        taken[new[n]] = n
    return {a: b for a, b in new.items() if a != b}


def turn(text, new):
    return WORD.sub(lambda m: new.get(m[0], m[0]), text)


def in_ticks(text, new):
    return re.sub(r"`[^`\n]*`", lambda m: turn(m[0], new), text)


def comment(text, new):
    humps = {a: b for a, b in new.items() if re.search("[a-z0-9][A-Z]", a)}
    m = re.match(r"(--\s{3,})((?:[^\s,]+,? )*[^\s,]+)(\s{2,}.*|)$", text)
    if not m:
        return "".join(turn(s, new if s[0] == "`" else humps) for s in re.findall(r"`[^`]*`|[^`]+|`", text))
    words = turn(m[2], new)
    # what stands beside the names keeps its column
    gap = m[3][min(len(words) - len(m[2]), len(m[3]) - len(m[3].lstrip()) - 2) :] if len(words) > len(m[2]) and m[3].strip() else m[3]
    return m[1] + words + gap


def line(text, new, mark):
    """One line of code: what stands behind the comment's mark is turned as a comment. A name of src/ that looks like one of specs/ stays."""
    if mark == "//":
        new = {a: b for a, b in new.items() if re.search("[-A-Z]", a)}
    m = re.match(r"(.*?)((?:^|\s)" + mark + r"(?:\s.*|))$", text)
    return turn(m[1], new) + comment(m[2], new) if m else turn(text, new)


def main():
    new = table()
    print(len(new), "names")
    for path in [*tree("crates", ".antt", ".rt", ".edit"), "README.md", *tree("docs", ".md")]:
        old = open(path, encoding="utf-8").read()
        if path.endswith(".md"):
            text = in_ticks(old, new)
        elif path.endswith(".edit"):
            text = "\n".join(turn(l, new) if re.match(r"(old|new|refused):", l) else l for l in old.split("\n"))
        else:
            mark = "--" if path.endswith(".antt") else "//"
            text = "\n".join(line(l, new, mark) for l in old.split("\n"))
        if text != old:
            with open(path, "w", encoding="utf-8") as f:
                f.write(text)


if __name__ == "__main__":
    main()
