#!/usr/bin/env bash
# Where the definitions stand that a reader has to believe, in the crates that are named, or in all. Prints what does not hold, exit 1 if anything
# does not:
# - no contract of a `pub fn` names what a specs/Inner.antt or a specs/Claims.antt holds, and no other file of specs/ does, so that what contracts
#   name does not lead there either;
# - a Claims.antt holds statements and the types that statements are built of, nothing else.
set -u
cd "$(dirname "$0")/.." || exit 1
PYTHONPATH=tests exec python3 -B - "$@" <<'PYTHON'
import antt, glob, os, re, sys

faults = []
INNER = re.compile(r"Rattle\.\w+\.specs\.(Inner|Claims)\b")

for source in sorted(glob.glob("crates/*/src/**/*.rt", recursive=True)):
    text = re.sub(r"//.*", "", open(source).read())
    brought = {}
    for path, names, other in re.findall(r"ghost use (Rattle[^\s{;]+)(?:\{([^}]*)\}| as (\S+))?;", text):
        if INNER.match(path):
            brought.update({name.split(" as ")[-1].strip(): path.rstrip(".") for name in (names or other or path.split(".")[-1]).split(",")})
    # the contract: from the function's first line to the line that opens its body
    for function, contract in re.findall(r'^ *pub (?:extern "C" )?fn (\w+)([^\n]*\{|.*?\n *\{)$', text, re.M | re.S):
        for word in sorted(set(antt.TOKEN.findall(contract))):
            place = brought.get(word.split(".")[0]) or INNER.match(word) and word
            if place:
                faults.append(f"{source}: the contract of {function} names {word} of {place}")

statements = {}
for source in sorted(glob.glob("crates/*/specs/**/*.antt", recursive=True)):
    file = os.path.basename(source)
    for line, words in antt.blocks(source) if file != "Inner.antt" else []:
        leads = {word.rstrip(".") for word in words if INNER.match(word)}
        faults += [f"{source}:{line}: it names {word}" for word in sorted(leads) if file != "Claims.antt" or ".Claims" not in word]
    if file == "Claims.antt":
        statements[source] = antt.blocks(source)

for source, blocks in statements.items():
    faults += [f"{source}:{line}: a block `{words[0]}`" for line, words in blocks if words[0] in ("module", "mutual", "open")]
    for d in antt.declarations(source):
        result = d.type[-d.type[::-1].index("→") :] if "→" in d.type else d.type
        if "unfoldable" in d.marks or result[:1] != ["Type"]:
            faults.append(f"{source}:{d.line}: {d.name} is a definition")
        elif "(" in d.parameters or "→" in d.type:
            others = [words for file in statements for line, words in statements[file] if words[0] not in (d.name, "use") and (file, line) != (source, d.line)]
            if not any(d.name in words for words in others):
                faults.append(f"{source}:{d.line}: no statement is built of {d.name}")

if sys.argv[1:]:
    faults = [fault for fault in faults if fault.split("/")[1] in sys.argv[1:]]
for fault in faults:
    print(fault)
if faults or not statements:
    sys.exit(1)
print("definitions: what contracts name stands neither in an Inner.antt nor in a Claims.antt")
PYTHON
