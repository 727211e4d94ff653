#!/usr/bin/env python3
"""Brings the repository's own definitions and lemmas to today's spelling: snake case for words, camel case for types.

Run once, at the top, after port.py. `--report` writes nothing and prints which names would fall together.
"""

import glob
import re
import sys

DELIMITERS = r"\s(){}\[\],;.⟨⟩\"«»`"
TOKEN = re.compile(rf"[^{DELIMITERS}]+")
DECLARED = re.compile(rf"^(\s*)((?:abbrev|unfoldable|pub|axiom|private|data|record) )*([^{DELIMITERS}]+)(?= (?::|\(|\{{|$))")
# Names that would fall together with another one get this one.
OTHERWISE = {
    "entered-counts": "entered_counts_is",
    "entered-queues": "entered_queues_is",
    "first-position": "first_position_is",
    "first-time": "first_time_is",
    "header-after": "header_after_is",
    "header-sound": "header_sound_is",
    "item-hashes": "item_hashes_is",
    "key-hash": "key_hash_is",
    "last-position": "last_position_is",
    "last-time": "last_time_is",
    "position-of": "position_of_is",
    "properties-of": "properties_of_is",
    "queue-read": "queue_read_is",
    "read-record": "read_record_is",
    "rows-of": "rows_of_is",
    "short-hosts": "short_hosts_is",
    "sizes-in": "sizes_in_is",
    "stands-as": "stands_as_is",
    "text-fits": "text_fits_is",
    "topic-of": "topic_of_is",
    "total-of": "total_of_is",
    "byOnes": "by_leading_ones",
}
# A variable and a name that stands for an import.
VARIABLES = {"recordTopic": "record_topic", "listedQueues": "listed_queues"}


def snake(name):
    if re.match(r"[A-Z]", name):
        return name
    name = re.sub(r"([a-z0-9])([A-Z])", lambda m: m.group(1) + "_" + m.group(2).lower(), name)
    return name.replace("-", "_")


def lemma_files():
    """Definitions and lemmas, without the proofs of functions."""
    for path in sorted(glob.glob("crates/*/specs/**/*.antt", recursive=True) + glob.glob("crates/*/proofs/**/*.antt", recursive=True)):
        if not path.endswith(("/Proof.antt", "/Invariants.antt", "/Answers.antt")):
            yield path


def imported(text):
    """Names that a file takes from elsewhere than this repository."""
    names = set()
    for path, listed in re.findall(r"^(?:ghost )?use ([^\s{;]+?)\.?\{([^}]*)\}", text, re.M):
        if not own(path):
            names.update(n.strip().split(" as ")[0] for n in listed.split(","))
    return names


def own(path):
    return re.match(r"Rattle\.(\w+)", path) and re.match(r"Rattle\.(\w+)", path).group(1) in CRATES


CRATES = {p.split("/")[1] for p in glob.glob("crates/*/src")}


def declared():
    found = {}
    for path in lemma_files():
        for line in open(path):
            line = line.split("--")[0]
            m = re.match(rf"^\s*(?:(?:abbrev|unfoldable|pub|axiom) )*([^{DELIMITERS}:]+) :(?:\s|$)", line)
            if m:
                found.setdefault(m.group(1), set()).add(path)
    return found


def mapping():
    table = dict(VARIABLES)
    for name in declared():
        to = OTHERWISE.get(name, snake(name))
        if to != name:
            table[name] = to
    return table


def rename(text, table, held, comment):
    out = []
    for line in text.split("\n"):
        code, mark, rest = (line, "", "")
        at = line.find(comment)
        if at >= 0:
            code, rest = line[:at], line[at:]
        swap = lambda m: table[m.group(0)] if m.group(0) in table and m.group(0) not in held else m.group(0)
        code = TOKEN.sub(swap, code)
        rest = re.sub(r"`[^`]*`", lambda m: TOKEN.sub(swap, m.group(0)), rest)
        out.append(code + rest)
    return "\n".join(out)


def main():
    table = mapping()
    back = {}
    for name, to in table.items():
        back.setdefault(to, []).append(name)
    everything = declared()
    problems = []
    for to, names in sorted(back.items()):
        if len(names) > 1 or to in everything:
            problems.append(f"{to}: {names} {sorted(everything.get(to, ()))[:3]} {[sorted(everything[n])[:2] for n in names]}")
    files = sorted(glob.glob("crates/*/specs/**/*.antt", recursive=True) + glob.glob("crates/*/proofs/**/*.antt", recursive=True) + glob.glob("crates/*/src/**/*.rt", recursive=True))
    report = "--report" in sys.argv
    for path in files:
        text = open(path).read()
        held = imported(text)
        comment = "//" if path.endswith(".rt") else "--"
        plain = "\n".join(l.split(comment)[0] for l in text.split("\n"))
        # tokens that stand by themselves, not behind a dot
        alone = {m.group(0) for m in TOKEN.finditer(plain) if m.start() == 0 or plain[m.start() - 1] != "."}
        for name in sorted(alone & set(table)):
            if name in held:
                problems.append(f"{path}: {name} comes from elsewhere and keeps its name")
            elif table[name] in alone:
                problems.append(f"{path}: {name} falls together with {table[name]}")
        if not report:
            new = rename(text, table, held, comment)
            if new != text:
                open(path, "w").write(new)
    print("\n".join(problems))
    print(f"{len(table)} names")


main()
