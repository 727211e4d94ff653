#!/usr/bin/env python3
"""Is the comparison strong enough? Each mutant is one wrong place in the model; the comparison has to notice it.

Each edit of mutants.txt is applied to a copy of the reference in a temporary folder, the comparison is built and run with a
fixed seed, and must report a difference. The archive is the one that the comparison links (SWISTOPAL_LIB_DIR, or
target/lib of this repository). Exit 1 if a mutant is not noticed and not explained.

    mutants.py [--seed N] [--count N] [NAME ..]
"""

import argparse
import os
import re
import shutil
import subprocess
import sys
import tempfile
from pathlib import Path

REFERENCE = Path(__file__).resolve().parent
SECONDS = 300


def read_edits(path):
    """Blocks divided by empty lines: name, file, '-' lines (old text), '+' lines (new text), at will '?' lines (why it cannot be noticed)."""
    edits = []
    for number, block in enumerate(re.split(r"\n\s*\n", path.read_text().strip())):
        lines = [line for line in block.split("\n") if not line.startswith("#")]
        if not lines:
            continue
        name, file = lines[0].rsplit(" @ ", 1)
        part = lambda mark: "\n".join(line[1:] for line in lines[1:] if line[:1] == mark)
        if any(line[:1] not in "-+?" for line in lines[1:]) or not part("-"):
            sys.exit(f"{path.name}: block {number + 1} ({name}) is not an edit")
        edits.append((name, file, part("-"), part("+"), " ".join(part("?").split())))
    return edits


def main():
    parser = argparse.ArgumentParser(description="Tries the comparison on wrong models.")
    parser.add_argument("--seed", type=int, default=1)
    parser.add_argument("--count", type=int, default=20000)
    parser.add_argument("names", nargs="*", metavar="NAME", help="only mutants whose name has this in it")
    arguments = parser.parse_args()

    edits = read_edits(REFERENCE / "mutants.txt")
    if len({name for name, *_ in edits}) < len(edits):
        sys.exit("mutants.txt: two mutants of one name")
    for name, file, old, *_ in edits:
        times = (REFERENCE / file).read_text().count(old)
        if times != 1:
            sys.exit(f"{name}: the old text stands {times} times in {file}")
    if arguments.names:
        edits = [edit for edit in edits if any(part in edit[0] for part in arguments.names)]

    with tempfile.TemporaryDirectory(prefix="swistopal-mutants-") as folder:
        copy = Path(folder, "reference")
        shutil.copytree(REFERENCE, copy, ignore=shutil.ignore_patterns("target"))
        # The comparison declares the C functions as the bindings do.
        shutil.copytree(REFERENCE.parent / "bindings", Path(folder, "bindings"), ignore=shutil.ignore_patterns("target"))
        # Each mutant is built once and run for seconds: what counts is the time to build it.
        environment = dict(os.environ, CARGO_TARGET_DIR=str(Path(folder, "target")), CARGO_INCREMENTAL="1", CARGO_PROFILE_RELEASE_OPT_LEVEL="1")
        environment.setdefault("SWISTOPAL_LIB_DIR", str(REFERENCE.parent / "target" / "lib"))

        def build():
            command = ["cargo", "build", "--quiet", "--release", "--offline", "-p", "compare"]
            return subprocess.run(command, cwd=copy, env=environment, capture_output=True, text=True)

        def compare():
            command = [str(Path(folder, "target", "release", "compare")), "--seed", str(arguments.seed), "--count", str(arguments.count)]
            try:
                return subprocess.run(command, env=environment, capture_output=True, text=True, timeout=SECONDS)
            except subprocess.TimeoutExpired:
                return None

        # The model as it is: what is noticed must be the mutant.
        built = build()
        if built.returncode:
            sys.exit(built.stderr)
        unchanged = compare()
        if unchanged is None or unchanged.returncode:
            print(unchanged.stdout if unchanged else "no end", end="")
            sys.exit("the unchanged model differs from the archive")

        missed = explained = 0
        for name, file, old, new, reason in edits:
            path = copy / file
            text = path.read_text()
            path.write_text(text.replace(old, new))
            built = build()
            if built.returncode:
                sys.exit(f"{name}: does not build\n{built.stderr}")
            run = compare()
            path.write_text(text)
            difference = run and re.search(r"^difference in scenario (\d+)", run.stdout, re.M)
            if run is None:
                verdict = f"noticed: no end within {SECONDS} seconds"
            elif difference:
                operation = re.search(r"\((\w+)\)", run.stdout[difference.start():])
                verdict = f"noticed at scenario {difference.group(1)} ({operation.group(1)})"
            elif reason:
                explained += 1
                verdict = f"not noticed, as explained: {reason}"
            else:
                missed += 1
                verdict = "NOT NOTICED"
            if reason and (run is None or difference):
                missed += 1
                verdict += ", though it is explained why it cannot be"
            print(f"{name:<50} {verdict}", flush=True)
        print(f"{len(edits)} mutants, {len(edits) - missed - explained} noticed, {explained} explained, {missed} wrong")
        return 1 if missed else 0


if __name__ == "__main__":
    sys.exit(main())
