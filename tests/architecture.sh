#!/usr/bin/env bash
# docs/ARCHITECTURE.md against the tree. Prints what does not hold, exit 1 if anything does not:
# - "Crates" has a row for each crate of crates.txt and for no other, in that order, and each row names what crates.txt names behind the crate;
# - each file of "Files to believe" and "Between the crates" is there, once, and the numbers run from 1 on;
# - "Files to believe" has each file that holds a definition which the contracts of the C functions or the demands' statements reach, and with
#   "Between the crates" each that the contract of any `pub fn` reaches;
# - each link of the pages in docs/ and of README.md leads to a file, and to a heading if it names one.
set -u
cd "$(dirname "$0")/.." || exit 1
PYTHONPATH=tests exec python3 -B - <<'PYTHON'
import antt, functools, glob, os, re, sys

PAGE = "docs/ARCHITECTURE.md"
# What the buyer's demands 2 and 3 come to.
DEMANDS = [("commit_log", "ReadsBack"), ("commit_log", "AppendsAgain"), ("index_laws", "QueryExact"), ("dispatch_laws", "QueryAfterCalls"), ("dispatch_laws", "Demand3")]
WHOLE = re.compile(r"Rattle\.(\w+)\.specs\.(\w+)\.([^.]+)")
faults = []
text = open(PAGE).read()


def section(title):
    found = re.search(rf"^## {title}\n(.*?)(?=^## |\Z)", text, re.M | re.S)
    if not found:
        faults.append(f"{PAGE}: it has no section '{title}'")
    return found.group(1) if found else ""


# ---- crates

listed = dict(re.findall(r"^(\w+)(?: staticlib)?:(.*)$", open("crates.txt").read(), re.M))
rows = re.findall(r"^\| `(\w+)` \| .+ \|\s*([\w, ]*?)\s*\|$", section("Crates"), re.M)
for crate in listed:
    if crate not in [name for name, _ in rows]:
        faults.append(f"{PAGE}: {crate} has no row")
for crate, on in rows:
    if crate not in listed:
        faults.append(f"{PAGE}: {crate} is no crate of crates.txt")
    elif on.split(", ") != (listed[crate].split() or [""]):
        faults.append(f"{PAGE}: {crate} stands on '{' '.join(listed[crate].split())}', not on '{on}'")
if not faults and [crate for crate, _ in rows] != list(listed):
    faults.append(f"{PAGE}: the rows of crates are not in the order of crates.txt, or one stands twice")

# ---- the files

numbers, believed = [], []
for number, label, file in re.findall(r"^(\d+)\. \[([^]]*)\]\(\.\./(crates/[^)]*)\)", section("Files to believe"), re.M):
    numbers.append(int(number))
    believed.append(file)
    if f"crates/{label}" != file:
        faults.append(f"{PAGE}: {label} leads to {file}")
if numbers != list(range(1, len(numbers) + 1)):
    faults.append(f"{PAGE}: the numbers of the files do not run from 1 to {len(numbers)}")
between = re.findall(r"^- \[[^]]*\]\(\.\./(crates/[^)]*)\)", section("Between the crates"), re.M)
faults += [f"{PAGE}: {file} is not there" for file in believed + between if not os.path.exists(file)]
faults += [f"{PAGE}: {file} stands twice" for file in set(believed + between) if (believed + between).count(file) > 1]


# ---- what definitions reach: (file, name) to (file, name)

@functools.cache
def defined(file):
    """The names of a file of specs/, each with the words of what declares it: its own blocks, or the type or module that it is a part of."""
    found = {}
    if file not in antt.reached(os.path.dirname(file)):
        return found
    blocks = [[word for word in words if word not in antt.MARKS] for _, words in antt.blocks(file)]
    for words in blocks:
        if words[0] not in ("use", "mod", "module", "unfolding"):
            found.setdefault(words[words[0] in ("record", "data")], set()).update(words)
    for words in blocks:
        if words[0] in ("record", "data", "module"):
            for word in set(words) - set(found):
                found[word] = set(words)
    return found


@functools.cache
def uses(file):
    return antt.uses(file)


def leads(file, word):
    """Where a word of a file of specs/ leads: to a name of another file, or of its own."""
    head, dot, rest = word.removeprefix("package.").partition(".")
    whole = WHOLE.match(uses(file).get(head, head) + dot + rest)
    if whole:
        return f"crates/{whole[1]}/specs/{whole[2]}.antt", whole[3]
    # what stands behind a dot is a field
    return file, word if word in defined(file) else head


def reach(start):
    found, left = set(), list(start)
    while left:
        file, name = left.pop()
        if (file, name) not in found and name in defined(file):
            found.add((file, name))
            left += [leads(file, word) for word in defined(file)[name]]
    return {file for file, _ in found}


def contracts(source, head):
    """The names that contracts of a file of src/ bring from specs/."""
    code = re.sub(r"//.*", "", open(source).read())
    brought = {}
    for path, names, other in re.findall(r"ghost use (Rattle[^\s{;]+)(?:\{([^}]*)\}| as (\S+))?;", code):
        for name in (names or path.rpartition(".")[2]).split(","):
            name, _, alias = name.strip().partition(" as ")
            brought[other or alias or name] = (path if names else path.rpartition(".")[0] + ".") + name
    for contract in re.findall(rf"^ *{head}fn \w+([^\n]*\{{|.*?\n *\{{)$", code, re.M | re.S):
        for word in set(antt.TOKEN.findall(contract)):
            whole = WHOLE.match(brought.get(word, word))
            if whole and whole[2] != "declared":
                yield f"crates/{whole[1]}/specs/{whole[2]}.antt", whole[3]


outer = [name for source in sorted(glob.glob("crates/*/src/lib.rt")) for name in contracts(source, 'pub extern "C" ')] + [(f"crates/{crate}/specs/Claims.antt", name) for crate, name in DEMANDS]
faults += [f"{PAGE}: no {name} in {file}" for file, name in outer if os.path.basename(file) == "Claims.antt" and name not in defined(file)]
faults += [f"{PAGE}: 'Files to believe' has not {file}" for file in sorted(reach(outer) - set(believed))]
every = [name for source in glob.glob("crates/*/src/**/*.rt", recursive=True) for name in contracts(source, 'pub (?:extern "C" )?')]
faults += [f"{PAGE}: it has not {file}, which a public contract reaches" for file in sorted(reach(every) - reach(outer) - set(believed + between))]

# ---- the links


def anchors(page):
    return {re.sub(r"[^\w\- ]", "", title.lower()).replace(" ", "-") for title in re.findall(r"^#+ (.*)$", open(page).read(), re.M)}


links = 0
for page in sorted(glob.glob("docs/**/*.md", recursive=True)) + ["README.md"]:
    for number, line in enumerate(open(page), 1):
        for target, heading in re.findall(r"\]\((?!\w+:)([^)#\s]*)(?:#([^)\s]*))?\)", line):
            links += 1
            file = os.path.normpath(os.path.join(os.path.dirname(page), target)) if target else page
            if not os.path.exists(file):
                faults.append(f"{page}:{number}: {target} is not there")
            elif heading and heading not in anchors(file):
                faults.append(f"{page}:{number}: {file} has no heading '{heading}'")

for fault in faults:
    print(fault)
if faults or not rows or not believed:
    sys.exit(1)
lines = sum(len(open(file).readlines()) for file in believed)
print(f"{PAGE}: {len(rows)} crates, each with its row; {len(believed)} files to believe, {lines} lines, and {len(between)} between the crates; {links} links")
PYTHON
