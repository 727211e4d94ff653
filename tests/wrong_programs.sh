#!/usr/bin/env bash
# The wrong programs of crates/*/must-fail, in the crates that are named, or in all: each is refused in the place that it names, and because a fact fails
# there. Prints what does not hold, exit 1 if anything does not.
#
# `rt ci` asks that an edit is refused. An edit may hold several wrong programs, one of a function. Each has a line
#   wrong: NAME in FUNCTION      the function's own proof fails, or none is found for it
#   wrong: NAME at proofs/FILE   an edit to a definition: a law in that file fails
# In copies of the crates each edit is checked as a whole, over what checks of these crates kept, and all is read that the check says.
set -u
cd "$(dirname "$0")/.." || exit 1
PYTHONPATH=tests exec python3 -B - "$@" <<'PYTHON'
import antt, concurrent.futures, glob, os, queue, re, shutil, subprocess, sys, tempfile

# What a check says where a proof file no longer fits the code: that shows nothing of the program.
STALE = re.compile(r"that can be named from here|has no field|has no `|not in scope|components|error: `(invariant|decreases)-")
PARTS = ("src", "specs", "proofs")
faults, names = [], {}


def read(path):
    return open(path, encoding="utf-8").read()


def source_of(place):
    """The file of src/ that holds a function, its name there, and the type whose method it is, with the trait's name behind it if it is one's."""
    *above, name = place.split("::")
    kind = above.pop() if above and above[-1][0].isupper() else ""
    return f"src/{'/'.join(above) or 'lib'}.rt", kind, name


def stands_in(place, text, number):
    """Whether this line lies in the function, from its attributes to its last brace."""
    _, kind, name = source_of(place)
    lines, of = text.split("\n"), ""
    for at, line in enumerate(lines):
        of = antt.impl_at(line) or ("" if line.startswith("}") else of)
        function = re.match(r'( *)(?:pub )?(?:extern "C" )?fn (\w+)', line)
        if function and function[2] == name and of == kind:
            first = at
            while first and lines[first - 1].startswith(function[1] + "#["):
                first -= 1
            last = next(i for i in range(at, len(lines)) if lines[i] == function[1] + "}")
            return first < number <= last + 1
    return False


class Edit:
    """An edit: its crate, the programs (name, kind, place) that it holds, and the texts of the files that it changes."""

    def __init__(self, path):
        self.path, self.crate, self.programs, self.texts = path, path.split("/")[1], [], {}
        before, *found = re.split(r"^wrong: ", read(path), flags=re.M)
        if before or not found:
            faults.append(f"{path}: it does not start with a line 'wrong: NAME in FUNCTION'")
        file, old = "", ""
        for program in found:
            head = re.match(r"(\w+) (in|at) (\S+)\n", program)
            if not head or not re.search(r"^old: .*\nnew:", program, re.M):
                faults.append(f"{path}: not 'wrong: NAME in FUNCTION' or 'wrong: NAME at FILE' with a replacement below it: {program.splitlines()[0]}")
                continue
            name, kind, place = head.groups()
            if any(place == other for _, _, other in self.programs) or kind == "at" and len(found) > 1:
                faults.append(f"{path}: {name}: its refusal cannot be told from that of another wrong program of the edit")
            if name in names.setdefault(self.crate, set()):
                faults.append(f"{path}: {name} stands twice in the crate")
            names[self.crate].add(name)
            self.programs.append((name, kind, place))
            for key, text in re.findall(r"^(file|old|new):(?: (.*))?$", program, re.M):
                if key == "file":
                    file = text.strip()
                elif key == "old":
                    old = text
                else:
                    whole = f"crates/{self.crate}/{file}"
                    was = self.texts.setdefault(file, read(whole) if os.path.exists(whole) else "")
                    if was.count(old) != 1:
                        faults.append(f"{path}: {name}: '{old}' stands {was.count(old)} times in {file}, and not once")
                    self.texts[file] = was.replace(old, text)

    def judged(self, said):
        """What does not hold, by all that the check said."""
        if not re.search(r"^logic=not-proved", said, re.M):
            return [f"{self.path}: the check did not end with logic=not-proved: {said.strip()[-300:]}"]
        lines = [line for line in said.split("\n") if re.match(r"(?:note: )?\S+:\d+:\d+: ", line) and (": error" in line or line.startswith("note: "))]
        stale = [f"{self.path}: a proof file does not fit the code: {line[:200]}" for line in lines if STALE.search(line)]
        facts = [line for line in lines if not STALE.search(line) and "was not admitted" not in line and " not checked: " not in line]
        return stale + [
            f"{self.path}: {name}: {place} is not refused by itself"
            for name, kind, place in self.programs
            if not any(self.is_here(kind, place, line) for line in facts)
            or kind == "in" and not re.search(rf"^fn {self.crate}::{re.escape(place)}: (not proved|no proof: .*`search` did not prove)", said, re.M)
        ]

    def is_here(self, kind, place, line):
        """Whether what a line says of a fact is said of the place."""
        file, number = re.match(r"(?:note: )?(?:\./)?(\S+?):(\d+):\d+: ", line).groups()
        if kind == "at":
            return file == place
        folder = place.replace("::", "/")
        if file.startswith((f"proofs/{folder}/", f"proofs/+{folder}/")):
            return True
        source = source_of(place)[0]
        return file == source and stands_in(place, self.texts.get(source) or read(f"crates/{self.crate}/{source}"), int(number))


def link(one, other):
    try:
        os.link(one, other)
    except OSError:
        shutil.copyfile(one, other)


def room_in(folder):
    """A copy of the crates and of what checks of them kept: `rt` makes such files anew and never writes into them."""
    os.makedirs(f"{folder}/.git")
    for file in ("crates.txt", "HANDLES"):
        if os.path.exists(file):
            shutil.copyfile(file, f"{folder}/{file}")
    for crate in sorted(glob.glob("crates/*")):
        for part in PARTS:
            if os.path.isdir(f"{crate}/{part}"):
                shutil.copytree(f"{crate}/{part}", f"{folder}/{crate}/{part}")
        for kept in ("out/rlib", "out/incremental"):
            if os.path.isdir(f"{crate}/{kept}"):
                shutil.copytree(f"{crate}/{kept}", f"{folder}/{crate}/{kept}", copy_function=link)
    return folder


def tried(edit):
    room = rooms.get()
    folder = f"{room}/crates/{edit.crate}"
    try:
        for file, text in edit.texts.items():
            with open(f"{folder}/{file}", "w", encoding="utf-8") as it:
                it.write(text)
        check = ["rt", "check", "--jobs", "1"]
        return subprocess.run(check, cwd=folder, stdin=subprocess.DEVNULL, stdout=subprocess.PIPE, stderr=subprocess.STDOUT, text=True, errors="replace").stdout
    finally:
        for file in edit.texts:
            shutil.copyfile(f"crates/{edit.crate}/{file}", f"{folder}/{file}")
        rooms.put(room)


edits = sorted(glob.glob("crates/*/must-fail/*.edit"))
lacking = [crate for crate in sys.argv[1:] if crate not in {edit.split("/")[1] for edit in edits}]
if lacking:
    sys.exit(f"wrong programs: {lacking[0]} is no crate with must-fail edits")
edits = [Edit(edit) for edit in edits if not sys.argv[1:] or edit.split("/")[1] in sys.argv[1:]]
if not faults:
    with tempfile.TemporaryDirectory(prefix="swistopal-wrong-programs-") as top:
        rooms, many = queue.Queue(), os.cpu_count() or 1
        for number in range(many):
            rooms.put(room_in(f"{top}/{number}"))
        with concurrent.futures.ThreadPoolExecutor(many) as pool:
            for edit, said in zip(edits, pool.map(tried, edits)):
                faults += edit.judged(said)

for fault in faults:
    print(fault)
if faults or not edits:
    sys.exit(1)
print(f"{sum(map(len, names.values()))} wrong programs in {len(edits)} edits, each refused by itself")
PYTHON
