#!/usr/bin/env python3
"""Brings the names of definitions and lemmas to the spelling of today's Rattle: words in snake case, a dash only between the names that a
lemma joins. Run once at the top of the repository, right after the kit's own port script: python3 tools/port_names.py

It turns whole words: in .antt files, in .rt files outside of strings, in must-fail edits, and in the code spans of the pages. A word is turned
where the .antt files have it as a name that begins in lower case and has a capital inside (`setOf` becomes `set_of`); such names are the
repository's own, since the library has none. The fields of records and the constructors lose their dashes too (`no-tree` becomes `no_tree`).
"""

import os
import re

WORD = re.compile(r"(?<![\w'\-])[A-Za-z_][\w'ᴰᴷ]*(?:-[\w'ᴰᴷ]+)*")
STRING = re.compile(r'"(?:\\.|[^"\\\n])*"')
SPAN = re.compile(r"`[^`\n]+`")

# Lemmas whose name would fall together with that of the definition that they are on, by today's rule for such a lemma; and names that the
# kit's script left in the old spelling, or a definition that had a dash. Each turned everywhere in .antt files.
FIRST = {
    "two_bytes": "two_bytes_lem",
    "head_bytes": "head_bytes_lem",
    "each_in": "each_in_lem",
    "one_set": "one_set_lem",
    "opens_by": "opens_by_lem",
    "target_at": "target_at_lem",
    "and-more": "and_more",
    "index_Reads": "IndexReads",
}


def files(top, endings, skip=("out", "target", ".git")):
    for folder, folders, names in os.walk(top):
        folders[:] = sorted(f for f in folders if f not in skip)
        for name in sorted(names):
            if name.endswith(endings):
                yield os.path.join(folder, name)


def read(path):
    with open(path, encoding="utf-8") as file:
        return file.read()


def snake(word):
    """Each part between dashes that begins in lower case, in snake case; `getD` is today's `get_or`."""
    parts = ["get_or" if part == "getD" else part for part in word.split("-")]
    turn = lambda part: re.sub(r"(?<=[a-z0-9'])([A-Z])", lambda m: "_" + m.group(1).lower(), part)
    return "-".join(turn(part) if re.match("[a-z]", part) else part for part in parts)


def declared(text):
    """The fields and constructors that the text declares in its records and data types and that have a dash."""
    inside = False
    for line in text.split("\n"):
        if re.match(r"(?:pub )?(?:data|record)\b", line):
            inside = True
        elif line.strip() and not line.startswith(" "):
            inside = False
        elif inside:
            match = re.match(r"\s+(?:pub )?([\w'\-ᴰᴷ]+(?: [\w'\-ᴰᴷ]+)*) :", line)
            yield from (w for w in match.group(1).split() if "-" in w) if match else ()


def main():
    words, fields = set(), set()
    for path in files("crates", ".antt"):
        text = read(path)
        fields |= set(declared(text))
        for line in text.split("\n"):
            if not line.lstrip().startswith("--"):
                words |= set(WORD.findall(line))
    table = {w: snake(w) for w in words if w not in FIRST and re.search(r"(?:^|-)[a-z][a-z0-9'_]*[A-Z]", w) and snake(w) != w}
    table |= {w: snake(re.sub("^[A-Z](?=-)", lambda m: m.group(0).lower(), w)).replace("-", "_") for w in fields}

    def by(tables):
        def turn(match):
            word = match.group(0)
            for t in tables:
                word = t.get(word, word)
            return word
        return lambda text: WORD.sub(turn, text)

    def outside_strings(text):
        parts, at = [], 0
        for m in STRING.finditer(text):
            parts += [by([table])(text[at:m.start()]), m.group(0)]
            at = m.end()
        return "".join(parts) + by([table])(text[at:])

    turned = 0
    for path in files("crates", (".antt", ".rt", ".edit")) :
        old = read(path)
        new = by([FIRST, table])(old) if path.endswith(".antt") else outside_strings(old)
        if new != old:
            turned += 1
            with open(path, "w", encoding="utf-8") as file:
                file.write(new)
    for path in files(".", ".md"):
        old = read(path)
        new = SPAN.sub(lambda m: by([table])(m.group(0)), old)
        if new != old:
            turned += 1
            with open(path, "w", encoding="utf-8") as file:
                file.write(new)
    print(f"{len(table) + len(FIRST)} names, {turned} files")


if __name__ == "__main__":
    main()
