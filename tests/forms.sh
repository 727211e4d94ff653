#!/usr/bin/env bash
# The language forms that document 01 names, as docs/DECISIONS.md lists them: each file of a row is there, each name stands in one of its files, and what
# is quoted behind "`function` in `file`:" stands in that function's body. Prints what does not hold, exit 1 if anything does not.
set -u
cd "$(dirname "$0")/.." || exit 1
exec python3 -B - <<'PYTHON'
import os, re, sys

PAGE = "docs/DECISIONS.md"
section = re.search(r"^## Language forms.*?(?=^## )", open(PAGE).read(), re.M | re.S).group(0)
rows = [line.strip("| ").split(" | ") for line in section.splitlines() if line.startswith("| ") and not line.startswith("| Form")]
QUOTED = r"`([^`]+)`"
faults, quoted = [], 0


def source(path):
    return open(path).read() if os.path.isfile(path) else ""


def body(function, text):
    found = re.search(r"^( *)(?:pub )?fn %s\b(?:[^\n]* \{\n|.*?^\1\{\n)(.*?)^\1\}" % re.escape(function), text, re.M | re.S)
    return re.sub(r"//.*", "", found.group(2)) if found else ""


for form, where in rows:
    paths = [name for name in re.findall(QUOTED, where) if "/" in name]
    faults += [f"{PAGE}: {form}: no file {path}" for path in paths if not os.path.isfile(path)]
    texts = [source(path) for path in paths]
    for name in re.findall(QUOTED, where):
        stands = lambda text: name in text or all(re.search(r"\b%s\b" % re.escape(part), text) for part in name.split("::"))
        if name not in paths and not any(map(stands, texts)):
            faults.append(f"{PAGE}: {form}: `{name}` stands in none of {', '.join(paths)}")
    for function, path, quotes in re.findall(r"`(\w+)` in `([^`]+)`: ((?:`[^`]+`(?:, )?)+)", where):
        for quote in re.findall(QUOTED, quotes):
            quoted += 1
            if quote not in body(function, source(path)):
                faults.append(f"{path}: {form}: {function} has no `{quote}`")

for fault in faults:
    print(fault)
if faults or not quoted:
    sys.exit(1)
print(f"forms: {len(rows)} forms, {quoted} quotes of functions")
PYTHON
