"""Counts the places of older forms in the sources of a commit, point by point as docs/DESIGN-PASS.md has them.

    python3 tools/forms.py COMMIT          the counts, by point and crate
    python3 tools/forms.py COMMIT POINT    the places of one point, a line each

A place is found by how it is written; whether it is one is for a reader to say. Comments and ghost lines are not looked at.
"""
import re
import subprocess
import sys
from collections import Counter, defaultdict


def git(*args):
    return subprocess.run(["git", *args], check=True, capture_output=True, text=True).stdout


def sources(commit):
    """(crate, file, lines without comments) of each source file."""
    for path in git("ls-tree", "-r", "--name-only", commit, "crates").split("\n"):
        if re.fullmatch(r"crates/\w+/src/.*\.rt", path):
            text = git("show", f"{commit}:{path}").split("\n")
            yield path.split("/")[1], path, [re.sub(r"^\s*//.*$", "", line) for line in text]


def functions(lines):
    """(first line, name, parameters, clauses, body) of each function."""
    text = "\n".join(lines)
    for m in re.finditer(r"^ *(?:pub )?(?:extern \"C\" )?fn (\w+)(?:<[^>]*>)?\(", text, re.M):
        depth, i = 1, m.end()
        while depth:
            depth += {"(": 1, ")": -1}.get(text[i], 0)
            i += 1
        parameters = text[m.end():i - 1]
        j = re.compile(r"^ *\{$| \{$", re.M).search(text, i)
        if not j:
            continue
        head = text[i:j.start()]
        clauses = re.findall(r"^ *(requires|ensures)(?: \w+)? \{(.*)\}$", head, re.M)
        indent = re.match(r" *", text[text.rfind("\n", 0, m.start() + 1) + 1:m.end()]).group()
        end = re.compile(r"^" + indent + r"\}$", re.M).search(text, j.end())
        yield text.count("\n", 0, m.start()) + 1, m.group(1), parameters, clauses, text[j.end():end.start() if end else j.end()]


def names(parameters):
    return [p.split(":")[0].strip().removeprefix("mut ") for p in re.split(r",(?![^<\[(]*[>\])])", parameters) if ":" in p]


NUMBER = r"(?:u8|u16|u32|u64|usize)"

# A line that has one of these is a place of the point.
LINES = {
    "1 flag or number beside a value": r"^ *(?:pub )?(?:fault|fine|refusal|yes|found|number): (?:u8|bool|Refusal),$",
    "1 a number tested for a refusal or for none": r"(?:fault|number|size|length|trees|refusal\.number) (?:!=|==) (?:0|SHORT)\b|\.refusal\.number|!\w+\.fine|NO_ROOM|before == b'",
    "1 a match on a bare number": r"\bmatch (?:kind|task|letter|self\.kind|shape\.kind)\b",
    "3 a loop by hand": r"^ *(?:while\b(?! let)|loop \{)",
    "4 a conversion by hand": r"\bas " + NUMBER + r"\b|% (?:256|65536)\b",
    "6 a number of elements beside an array": r"^ *(?:pub )?(?:count|symbols|rows|nodes|depth): " + NUMBER + r",$",
    "6 a place beside a slice": r"\bat: usize|\bstart: usize|\bbase: usize",
    "7 a bool that picks a step": r"^.*\bfn .*\b(?:first|symbol|rest|symbols|looping|used|letter|letters): bool|^ *(?:first|symbol|rest|symbols|looping|used|letter|letters): bool",
}


def shape(text):
    """A body with its names and numbers taken out, to find twins."""
    return re.sub(r"\s+", "", re.sub(r"\b[a-zA-Z_]\w*\b", "n", re.sub(r"\b\d+\b", "0", text)))


def places(commit):
    found = defaultdict(list)
    bodies, clauses, together = defaultdict(list), defaultdict(list), defaultdict(list)
    for crate, path, lines in sources(commit):
        for n, line in enumerate(lines, 1):
            if "ghost use" in line or re.match(r" *(?:requires|ensures|use|const|pub const) ", line):
                continue
            for point, pattern in LINES.items():
                for _ in re.finditer(pattern, line):
                    found[point].append((crate, f"{path}:{n}: {line.strip()}"))
        for n, name, parameters, facts, body in functions(lines):
            where = (crate, f"{path}:{n}: {name}")
            if len(body.strip()) > 40 and "door_" not in name:
                bodies[shape(body)].append(where)
            for kind, fact in facts:
                if kind == "requires":
                    for part in re.split(r" × ", fact):
                        clauses[crate, shape(part)].append(where)
            have = names(parameters)
            for a in range(len(have)):
                for b in range(a + 1, len(have)):
                    if "door_" not in name:
                        together[crate, have[a], have[b]].append(where)
    for same in bodies.values():
        if len(same) > 1:
            found["2 bodies that differ in names and numbers alone"] += same
    for same in clauses.values():
        if len(same) > 2:
            found["5 a fact required by three functions or more"] += same
    pairs = Counter()
    for (crate, a, b), same in together.items():
        if len(same) > 2:
            pairs[crate, a, b] = len(same)
            found["5 two parameters that go together to three functions or more"].append((crate, f"{a}, {b}: {len(same)} functions"))
    for path in git("ls-tree", "-r", "--name-only", commit, "crates").split("\n"):
        m = re.fullmatch(r"crates/(\w+)/proofs/.*/(?:Answers|Invariants)\.antt", path)
        if m:
            for line in git("show", f"{commit}:{path}").split("\n"):
                if re.match(r"(?:abbrev )?pub \S+ : goal\.", line):
                    found["8 answers, invariants and measures"].append((m.group(1), f"{path}: {line}"))
    return found


def main():
    commit = sys.argv[1]
    found = places(commit)
    if len(sys.argv) > 2:
        for point in sorted(found):
            if point.startswith(sys.argv[2]):
                print(point)
                for _, place in found[point]:
                    print("   ", place)
        return
    for point in sorted(found):
        by = Counter(crate for crate, _ in found[point])
        print(f"{point}: {sum(by.values())}  ({', '.join(f'{c} {n}' for c, n in sorted(by.items()))})")


main()
