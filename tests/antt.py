"""What the tests read of .antt files: the declarations in a file's first column, what its `use` lines bring, and the files that a root's `mod` lines reach;
and of .rt files: whose `impl` begins at a line."""
import os, re

TOKEN = re.compile(r'"(?:\\.|[^"\\])*"|[(){};,@]|(?:«[^»]*»|[^\s(){};,@"«»])+')
MARKS = ("unfoldable", "abbrev", "axiom", "pub")


def bare(text):
    """The text without its comments, each line still in its place."""
    kept, depth = [], 0
    outside = re.compile(r'"(?:\\.|[^"\\])*"|\{-|(?<![^\s(){};,@])--[^\n]*|.', re.S)
    inside = re.compile(r"\{-|-\}|.", re.S)
    at = 0
    while at < len(text):
        word = (inside if depth else outside).match(text, at).group()
        at += len(word)
        depth += (word == "{-") - (word == "-}" and depth > 0)
        if word == "\n" or not depth and word != "-}" and not word.startswith("--"):
            kept.append(word)
    return "".join(kept)


def blocks(path):
    """What stands in the file's first column, each with its indented lines: (line, words). What is indented, as in a `module _`, begins none."""
    found = []
    for number, line in enumerate(bare(open(path).read()).split("\n"), 1):
        if line[:1].strip():
            found.append((number, []))
        if found:
            found[-1][1].extend(TOKEN.findall(line))
    return found


class Declaration:
    def __init__(self, line, marks, kind, name, parameters, type):
        self.line, self.marks, self.kind, self.name, self.parameters, self.type = line, marks, kind, name, parameters, type


def declaration(line, words):
    """The signature that a block is, or None: a clause, an `unfolding` line and a `use` line are none."""
    words = list(words)
    marks = []
    while words and words[0] in MARKS:
        marks.append(words.pop(0))
    kind = words.pop(0) if words and words[0] in ("record", "data") else ""
    if not words or words[0] in ("use", "mod", "module", "mutual", "open", "unfolding", "ruleset"):
        return None
    name, depth = words[0], 0
    for i, word in enumerate(words):
        depth += (word in "({") - (word in ")}")
        if depth == 0 and word == "=":
            return None
        if depth == 0 and word == ":":
            end = words.index("where") if kind and "where" in words else len(words)
            return Declaration(line, marks, kind, name, words[1:i], words[i + 1 : end])
    return None


def declarations(path):
    return [d for d in (declaration(*block) for block in blocks(path)) if d]


def clauses(path):
    """The names that have a clause in the file's first column."""
    return {words[0] for line, words in blocks(path) if "=" in words and not declaration(line, words)}


def holes(path):
    return [line for line, words in blocks(path) if "?" in words]


def uses(path):
    """What the header brings: the name here, and its whole path."""
    brought = {}
    for _, words in blocks(path):
        words = [word for word in words if word not in MARKS]
        if words[:1] != ["use"]:
            continue
        whole = words[1].removeprefix("package.")
        if "{" not in words:
            brought[words[3] if words[2:3] == ["as"] else whole.split(".")[-1]] = whole
            continue
        for item in " ".join(words[words.index("{") + 1 : words.index("}")]).split(","):
            name, _, other = item.strip().partition(" as ")
            brought[other or name.split(".")[-1]] = whole + name
    return brought


def named(path, word):
    """The whole path of a word of the file, as (crate, path below specs): of a crate's own specs and of another's alike. None if it is no crate's specs'."""
    head, dot, rest = word.removeprefix("package.").partition(".")
    whole = uses(path).get(head, head) + dot + rest
    inside = re.fullmatch(r"Rattle\.(\w+)\.specs\.(.+)", whole)
    return inside.groups() if inside else None


def reached(folder, file="Lib.antt"):
    """The files that a root reaches by `mod` lines."""
    root = os.path.join(folder, file)
    if not os.path.exists(root):
        return []
    below = folder if file == "Lib.antt" else root.removesuffix(".antt")
    files = [root]
    for _, words in blocks(root):
        words = [word for word in words if word != "pub"]
        if words[:1] == ["mod"]:
            files += reached(below, words[1] + ".antt")
    return files


def impl_at(line):
    """The type whose `impl` begins at the line, with the trait's name behind it as the check has it: `U32FromAnswer` of `impl From<Answer> for u32`."""
    begun = re.match(r"impl(?:<[^>]*>)? (?:(?:\w+::)*(\w+)(?:<(\w+)>)? for )?(\w+)", line)
    return "".join(part[0].upper() + part[1:] for part in (begun[3], begun[1], begun[2]) if part) if begun else ""
