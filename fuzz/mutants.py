#!/usr/bin/env python3
"""What the fuzzer would notice: makes small mistakes in the compiler's module of the proved code, one at a time, and replays a corpus.

    fuzz/mutants.py HOW_MANY [SEED]

A mistake is a comparison off by one (<= for <, < for <=) or turned round (= for /=, /= for =), or a constant that is one too large. Each
is compiled and linked with the harness, much as fuzz/build does. It counts as noticed where the replay of target/fuzz/corpus, or else ten
seconds of fuzzing from there, stops with a difference, with a report of AddressSanitizer, or not at all. Mistakes that are not noticed
are printed: some of them change nothing.
"""
import os
import random
import re
import shutil
import subprocess
import sys
import tempfile

ROOT = os.path.dirname(os.path.dirname(os.path.abspath(__file__)))
MADE = os.path.join(ROOT, "target", "fuzz")
KIT_CLANG = os.path.realpath(os.path.join(MADE, "toolchain", "bin", "llvm-ar"))
HARNESS = os.path.join(MADE, "exact", "release", "libfuzz_doors.a")
CRATES = ["doors", "bridges", "hatches"]
OTHER = {"ult": "ule", "ule": "ult", "eq": "ne", "ne": "eq"}
CONSTANT = re.compile(r"(?:= (?:add|mul|sub|udiv|urem|shl|lshr|icmp)\b.*, |store i(?:8|16|32|64) )(\d+)\b")


def mistakes(lines):
    """Every place of a line, the line with a mistake, and the function that it is in."""
    function = ""
    for place, line in enumerate(lines):
        if line.startswith("define"):
            function = re.search(r'@"?([^"(]*)', line).group(1)
        comparison = re.search(r"icmp (\w+) ", line)
        if comparison:
            how = comparison.group(1)
            yield place, line.replace("icmp " + how, "icmp " + OTHER[how]), function
        constant = CONSTANT.search(line)
        if constant:
            start, end = constant.span(1)
            yield place, line[:start] + str(int(constant.group(1)) + 1) + line[end:], function


def how_noticed(crate, lines, folder):
    """Where a mistake in a crate's module shows: in the replay, in the fuzzing, or nowhere."""
    source, compiled, program = (os.path.join(folder, name) for name in ("mutant.ll", "mutant.o", "mutant"))
    with open(source, "w") as file:
        file.write("\n".join(lines))
    target = ["--target=x86_64-unknown-linux-gnu", "-march=x86-64", "--no-default-config"]
    sanitizers = ["-fsanitize=address", "-fsanitize-coverage=inline-8bit-counters,pc-table,trace-cmp"]
    subprocess.run([KIT_CLANG, "--driver-mode=gcc", *target, "-fPIC", "-O1", *sanitizers, "-c", "-x", "ir", source, "-o", compiled], check=True)
    others = [os.path.join(MADE, other + ".o") for other in CRATES if other != crate]
    subprocess.run(["clang-14", "-fsanitize=fuzzer,address", compiled, *others, HARNESS, "-o", program], check=True)
    found = os.path.join(folder, "found")
    shutil.rmtree(found, ignore_errors=True)
    os.mkdir(found)
    corpus = os.path.join(MADE, "corpus")
    settings = ["-timeout=5", "-max_len=2048", "-entropic_scale_per_exec_time=1", "-artifact_prefix=" + folder + "/"]
    if stops([program, "-runs=0", *settings, corpus]):
        return "replay"
    if stops([program, "-max_total_time=10", *settings, found, corpus]):
        return "fuzzing"
    return "nowhere"


def stops(words):
    settings = dict(os.environ, ASAN_OPTIONS="detect_leaks=0:quarantine_size_mb=1:malloc_context_size=0")
    try:
        return subprocess.run(words, env=settings, capture_output=True, timeout=60).returncode != 0
    except subprocess.TimeoutExpired:
        return True


def main():
    how_many, seed = int(sys.argv[1]), int(sys.argv[2]) if len(sys.argv) > 2 else 1
    modules = {}
    for crate in CRATES:
        with open(os.path.join(MADE, crate + ".ll")) as file:
            modules[crate] = file.read().split("\n")
    every = [(crate, *mistake) for crate in CRATES for mistake in mistakes(modules[crate])]
    chosen = random.Random(seed).sample(every, min(how_many, len(every)))
    counts = {"replay": 0, "fuzzing": 0, "nowhere": 0}
    with tempfile.TemporaryDirectory() as folder:
        assert how_noticed("doors", modules["doors"], folder) == "nowhere", "it stops without any mistake"
        for crate, place, line, function in chosen:
            lines = modules[crate]
            how = how_noticed(crate, lines[:place] + [line] + lines[place + 1 :], folder)
            counts[how] += 1
            if how != "replay":
                print(f"{how}: {crate}, {function}, line {place + 1}: {lines[place].strip()}  ->  {line.strip()}  {counts}", flush=True)
    print(f"of {len(every)} mistakes {len(chosen)} were tried; where they showed: {counts}")


main()
