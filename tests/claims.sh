#!/usr/bin/env bash
# What the pages in docs/ say of the tree, and the wrong programs of its functions. Prints what does not hold, exit 1 if anything does not:
# - docs/CLAIMS.md: every file, name, test and wrong program that it names is there, it names every statement of a specs/Claims.antt, and every
#   statement is proved; the wrong programs that other pages name are there too;
# - docs/FORMAT.md: each section ends with its definitions, and each of them is in the file behind it;
# - crates/*/must-fail: every public function has two wrong programs or more in its own body, and every wrong program changes the function that it
#   names: a text of its body, or a constant that the body names; beside that at most its own proof files.
#
# A statement is what has no parameters: in a specs/Claims.antt all of it, elsewhere in specs/ each type that docs/CLAIMS.md names. It is proved by
# a declaration whose whole type is its name, in the first column of a file that the crate's proofs/Lib.antt reaches: that the declaration holds
# is the prover's to say. That a wrong program is refused is tests/wrong_programs.sh's to ask.
set -u
cd "$(dirname "$0")/.." || exit 1
PYTHONPATH=tests exec python3 -B - <<'PYTHON'
import antt, fnmatch, glob, itertools, os, re, sys

faults = []
sources = [p for folder in ("src", "specs", "proofs") for end in ("rt", "antt") for p in glob.glob(f"crates/*/{folder}/**/*.{end}", recursive=True)]
words = {word for source in sources for word in re.findall(r"[\w′-]+", open(source).read())}

# ---- the wrong programs: crate to [(edit, name, the function, [(file, the text that it replaces)])]

wrong = {}
for edit in sorted(glob.glob("crates/*/must-fail/*.edit")):
    file = ""
    for program in re.split(r"^wrong: ", open(edit).read(), flags=re.M)[1:]:
        name, kind, place = (program.split("\n")[0].split(" ") + ["", ""])[:3]
        replaced = []
        for key, text in re.findall(r"^(file|old): ?(.*)$", program, re.M):
            file = text if key == "file" else file
            replaced += [(file, text)] if key == "old" else []
        wrong.setdefault(edit.split("/")[1], []).append((edit, name, place if kind == "in" else "", replaced))


def spread(path):
    """`a/{b,c}/d` is `a/b/d` and `a/c/d`."""
    pieces = [piece.split(",") if i % 2 else [piece] for i, piece in enumerate(re.split(r"\{([^}]*)\}", path))]
    return ["".join(way).replace("\\", "") for way in itertools.product(*pieces)]


def wrong_programs(document, number, line):
    for path in re.findall(r"(?!target)\b[a-z_0-9]+/must-fail/(?:\{[^}]*\}|[\w*\\]+)", line):
        for one in spread(path):
            crate, _, name = one.split("/")
            if not fnmatch.filter([program[1] for program in wrong.get(crate, [])], name):
                faults.append(f"{document}:{number}: {one} is no wrong program")


# ---- docs/CLAIMS.md

for number, line in enumerate(open("docs/CLAIMS.md"), 1):
    wrong_programs("docs/CLAIMS.md", number, line)
    if not line.startswith("|"):
        continue
    for cell in line.split(" | ")[1:]:
        crate = ""
        # a crate's file, and files of the same crate's proofs behind it
        for path, file in re.findall(r"(\w+/(?:proofs|specs|src)(?:/[\w{},.*\\]+)*)|(?<![\w/])(\w+\.antt)", cell):
            crate = path.split("/")[0] if path else crate
            faults += [f"docs/CLAIMS.md:{number}: crates/{one} is not there" for one in spread(path.rstrip(",") or f"{crate}/proofs/{file}") if not glob.glob(f"crates/{one}")]
        faults += [f"docs/CLAIMS.md:{number}: reference/model/{test} is not there" for test in re.findall(r"\(model\) (tests/\w+\.rs)", cell) if not os.path.exists(f"reference/model/{test}")]
        for code in re.findall(r"`([^`]*)`", cell):
            if os.path.exists(code):
                continue
            faults += [f"docs/CLAIMS.md:{number}: no crate has `{name}`" for name in re.findall(r"[A-Za-z_][\w′-]*(?!\*)\b", code) if name not in words]
claims = open("docs/CLAIMS.md").read()
statements = {}
for source in sorted(glob.glob("crates/*/specs/**/*.antt", recursive=True)):
    _, crate, _, module = source.removesuffix(".antt").split("/", 3)
    for d in antt.declarations(source):
        told, whole = f"`{d.name}`" in claims, "(" not in d.parameters and "→" not in d.type
        if not whole or os.path.basename(source) != "Claims.antt" and (d.kind or d.type[:1] != ["Type"] or not told):
            continue
        statements[crate, f"{module.replace('/', '.')}.{d.name}"] = f"{source}:{d.line}: {d.name}"
        if not told:
            faults.append(f"docs/CLAIMS.md: it does not name `{d.name}` of {source}")
proved = set()
for folder in glob.glob("crates/*/proofs"):
    for source in antt.reached(folder):
        faults += [f"{source}:{line}: a hole" for line in antt.holes(source)]
        with_clause = antt.clauses(source)
        for d in antt.declarations(source):
            if not d.kind and not d.parameters and len(d.type) == 1 and "axiom" not in d.marks and d.name in with_clause:
                proved.add(antt.named(source, d.type[0]))
faults += [f"{place} is not proved: no declaration that a proofs/Lib.antt reaches has it as its whole type" for key, place in statements.items() if key not in proved]
for document in sorted(set(glob.glob("docs/**/*.md", recursive=True)) - {"docs/CLAIMS.md"}):
    for number, line in enumerate(open(document), 1):
        wrong_programs(document, number, line)

# ---- docs/FORMAT.md

definitions = 0
for part in re.split(r"^(?=##)", open("docs/FORMAT.md").read(), flags=re.M)[1:]:
    title, last = part.split("\n")[0].lstrip("# "), part.strip().split("\n")[-1]
    if not last.startswith("Definitions: "):
        faults.append(f"docs/FORMAT.md: '{title}' does not end with its definitions")
    for named, file in re.findall(r"(.*?)\[[^]]*\]\(\.\./([^)]*)\)", last):
        text = re.findall(r"[\w′-]+", open(file).read()) if os.path.exists(file) else []
        for name in re.findall(r"`([^`]*)`", named):
            definitions += 1
            if name not in text:
                faults.append(f"docs/FORMAT.md: '{title}': no `{name}` in {file}")

# ---- the functions: a method of a trait is one of the type with the trait's name behind it, as the check names it

functions = {}
for source in sorted(glob.glob("crates/*/src/**/*.rt", recursive=True)):
    crate, module = source.split("/")[1], source.split("/", 3)[3].removesuffix(".rt").replace("/", "::") + "::"
    of, lines = "" if module in ("lib::", "main::") else module, open(source).read().split("\n")
    kind, shown, gives, private = "", False, False, re.findall(r"^(?:struct|enum) (\w+)", "\n".join(lines), re.M)
    for number, line in enumerate(lines):
        begun = antt.impl_at(line)
        kind = begun + "::" if begun else "" if line.startswith("}") else kind
        # a trait's methods are as public as the type, and promise something where the `impl` says what they give
        trait = re.match(r"impl.* for (\w+)", line)
        shown = trait[1] not in private if trait else shown and not line.startswith("}")
        gives = shown and (gives or re.match(r"    ghost \w+ = \{", line))
        function = re.match(r'( *)(pub )?(?:extern "C" )?fn (\w+)', line)
        if function:
            margin, public, name = function.groups()
            end = next(i for i in range(number, len(lines)) if lines[i] == margin + "}")
            body = next(i for i in range(number, end) if lines[i].endswith("{") and not lines[i].startswith(margin + " "))
            functions[crate, of + kind + name] = (f"{source}:{number + 1}", bool(public or gives), "\n".join(lines[body : end + 1]))
own = {}
for crate, programs in wrong.items():
    for edit, name, place, replaced in programs:
        if place and (crate, place) not in functions:
            faults.append(f"{edit}: {name}: {place} is no function of {crate}")
        elif place:
            body = functions[crate, place][2]
            proofs = [f"proofs/{place.replace('::', '/')}/{file}.antt" for file in ("Invariants", "Answers", "Proof")]
            # the answers of its own proof may change with the code
            if all(file in proofs for file, _ in replaced):
                faults.append(f"{edit}: {name}: it does not change {place}")
            for file, text in replaced:
                if file in proofs:
                    continue
                constant = re.match(r"(?:pub )?const (\w+): ", text)
                if text in body:
                    own.setdefault((crate, place), set()).add(name)
                elif not constant or constant.group(1) not in re.findall(r"\w+", body):
                    faults.append(f"{edit}: {name}: '{text}' does not stand in {place}")
public = {key: place for key, (place, public, _) in functions.items() if public}
faults += [f"{place}: {'::'.join(key)} has not two wrong programs in its own body" for key, place in public.items() if len(own.get(key, [])) < 2]

for fault in faults:
    print(fault)
if faults or not public or not statements or not definitions:
    sys.exit(1)
print(f"docs/CLAIMS.md: all that it names is there; {len(statements)} statements, each proved; docs/FORMAT.md: {definitions} definitions, each in its file; {len(public)} public functions, each with two wrong programs or more in its own body")
PYTHON
