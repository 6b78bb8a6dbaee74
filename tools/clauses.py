"""Contracts of the product's functions in words: each clause with the comment over it. `tools/docs` calls this file:
`--promises` prints the contracts, and each clause of a public function without a comment is a fault."""
import glob
import re

# scenarios, and programs that promise nothing
APART = {"lintelthyme", "lintelthyme_plays", "wu_plays", "wu_play_files", "wu_play_laws", "wu_explain"}
HEAD = re.compile(r"^(\s*)((?:pub(?:\([a-z]+\))? )?)(?:const )?fn (\w+)")
GHOST = re.compile(r"^\s*ghost (\w+)(?: =|:) \{")
CLAUSE = re.compile(r"^\s*(ensures|requires)(?: (\w+))? \{")
OWNER = re.compile(r"^(?:pub )?(?:impl(?:<[^{]*?>)?\s+(?:\w[\w:]*(?:<[^{]*?>)?\s+for\s+)?|trait\s+)(\w+)")


def comment_over(lines, at, mark):
    """Returns the comment over a line: the text of the lines that begin with this mark. Attributes are passed over."""
    while at > 0 and lines[at - 1].strip().startswith("#["):
        at -= 1
    words = []
    while at > 0 and re.match(rf"\s*{mark}( |$)", lines[at - 1]):
        at -= 1
        words.insert(0, lines[at].strip()[len(mark):].strip())
    return " ".join(words).strip()


def functions(path, source):
    """Yields each function of a source: its owner, its name, whether it is public, its line, its comment and its
    clauses. A clause has a kind, a name, a line and a comment. A definition that a type gives for a trait counts as a
    function with one clause."""
    lines, owner, within_trait = source.split("\n"), None, False
    for number, line in enumerate(lines):
        ghost = GHOST.match(line)
        words = ghost and comment_over(lines, number, "//")
        if words:
            yield owner, ghost[1], False, number + 1, "", [("defines", ghost[1], number + 1, words)]
        found = OWNER.match(line)
        if found:
            owner, within_trait = found[1], "trait " in line.split("{")[0]
        elif line.startswith("}"):
            owner, within_trait = None, False
        head = HEAD.match(line)
        if not head:
            continue
        clauses, at = [], number
        while at < len(lines) and not re.match(r"\s*(\{\}?\s*$|\}\s*$)", lines[at]):
            clause = CLAUSE.match(lines[at])
            if clause:
                clauses.append((clause[1], clause[2] or "", at + 1, comment_over(lines, at, "//")))
            at += 1
            # a declaration of a trait ends so, and has no body
            is_over = lines[at - 1].rstrip().endswith(";") and not lines[at - 1].strip().startswith("//")
            if is_over or at < len(lines) and HEAD.match(lines[at]):
                break
        is_public = head[2] == "pub " or within_trait
        yield owner, head[3], is_public, number + 1, comment_over(lines, number, "///"), clauses


def crates(text):
    """Returns the crates that promise something, in the order of crates.txt."""
    listed = [line.split(":")[0].strip() for line in text("crates.txt").split("\n") if ":" in line and line[0] != "#"]
    return [name for name in listed if name not in APART]


def in_crate(text, crate):
    for path in sorted(glob.glob(f"crates/{crate}/src/**/*.rt", recursive=True)):
        for function in functions(path, text(path)):
            yield path, *function


def written(text, named):
    """Returns the contracts of the named crates in words; of all crates if none is named."""
    out = []
    for crate in named or crates(text):
        about = re.findall(r"^//! ?(.*)", text(f"crates/{crate}/src/lib.rt"), re.M)
        out += [f"# {crate}", "", " ".join(about), ""]
        for path, owner, name, is_public, line, doc, clauses in in_crate(text, crate):
            said = [clause for clause in clauses if clause[3]]
            if not said:
                continue
            called = f"{owner}::{name}" if owner else name
            kinds = {"requires": "premise ", "defines": "definition "}
            out += [f"## `{called}`{'' if is_public else ' (private)'}", "", f"{path}:{line}. {doc}".strip(), ""]
            out += [f"- {kinds.get(kind, '')}{f'`{its}`: ' if its else ''}{words}" for kind, its, _, words in said]
            out.append("")
    return "\n".join(out)


def silent(text):
    """Yields a line for each clause of a public function that has no comment over it."""
    for crate in crates(text):
        for path, owner, name, is_public, _, _, clauses in in_crate(text, crate):
            for _, its, line, words in clauses if is_public else []:
                if not words:
                    yield f"{path}:{line}: no comment over the clause {its or 'without a name'} of {name}"
