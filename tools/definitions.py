"""Definitions below each theorem of docs/CLAIMS.md, from its clause down: what a reader has to believe. `tools/docs`
calls this file: `--definitions` writes them, and the counts of CLAIMS are compared with them.

A definition is an item of a file of `crates/*/specs`, or a type of `crates/*/src` that one names. Names are resolved by
the `use` lines of their file.
"""
import glob
import os
import re
import textwrap
from dataclasses import dataclass, field

# the theorems: a title, and the file, the function and the clause that state it
THEOREMS = [
    ("After a crash", "crates/wu_lives/src/reopening.rt", "drive_stop_and_open", "found"),
    ("One command", "crates/wu_passes/src/project/session.rt", "run", "runs"),
    ("Histories of sessions", "crates/wu_lives/src/reopening.rt", "live_all", "found"),
    ("Soundness", "crates/wu_machine_laws/src/sound.rt", "lists_keep_sound", ""),
    ("Check", "crates/wu_process_laws/src/lib.rt", "a_check_is_true", ""),
]
USE = re.compile(r"^(?:ghost )?use Rattle\.([\w.]+?)(?:\.\{([^}]*)\})?(?: as (\w+))?;?$", re.M)
ITEM = re.compile(r"( *)(?:pub )?(?:abbrev|unfoldable|record|data)(?: pub)? ([^\s:({]+)")
TYPE = re.compile(r"^pub (?:struct|enum) (\w+).*?(?:;\n|^\}\n)", re.M | re.S)
# a word, except a field that is given its value: `field = value`
WORD = re.compile(r"(?<![\w.'])([A-Za-z_][\w']*(?:\.[A-Za-z_][\w']*)*)(?![\w'])(?!\s*=[^=>])")


@dataclass(eq=False)
class Definition:
    file: str
    name: str
    comment: list
    lines: list
    # the head of the module that it stands in, if there is one
    module: str = ""
    indent: int = 0
    uses: list = field(default_factory=list)
    outside: set = field(default_factory=set)


def imports(source):
    """Returns for each name of a file's `use` lines the module of the toolchain or of a crate, and the name there."""
    found = {}
    for path, names, alias in USE.findall(source):
        if alias:
            found[alias] = (path, None)
        for name in filter(None, (part.strip() for part in names.split(","))):
            theirs, _, ours = name.partition(" as ")
            found[ours or theirs] = (path, theirs)
    return found


def specs_of(path, lines):
    """Returns the items of a file of specs, each with the comment over it, its lines, and the head of its module."""
    items, comment, module, current = [], [], "", None
    for line in lines:
        indent = len(line) - len(line.lstrip())
        is_inside = current and line.strip() and indent > current.indent
        if line.startswith("module ") or module and not module.endswith("where"):
            module, comment, current = f"{module} {line.strip()}" if line[0] == " " else line, [], None
        elif not is_inside and (found := ITEM.match(line)):
            current = Definition(path, found[2], comment, [line], module if indent else "", indent)
            items.append(current)
            comment = []
        elif is_inside or current and line.strip().split(" ")[0] == current.name:
            # an equation begins with the name
            current.lines.append(line)
        else:
            comment = [*comment, line] if line.strip().startswith("--") else []
    return items


def types_of(path, source):
    """Returns the public types of a file of code, each with its comment."""
    found = []
    for match in TYPE.finditer(source):
        above = source[: match.start()].split("\n")[:-1]
        start = len(above)
        while start and above[start - 1].startswith(("///", "#[")):
            start -= 1
        comment = [line for line in above[start:] if line.startswith("///")]
        found.append(Definition(path, match[1], comment, match[0].rstrip("\n").split("\n")))
    return found


def code(lines):
    """Returns the lines without comments and blank ones."""
    return [line for line in lines if line.strip() and not line.strip().startswith(("--", "//"))]


class Definitions:
    def __init__(self, text):
        self.text = text
        # the items of each file of specs by name, the types of each crate by name, the imports of each file of specs
        self.specs, self.types, self.imports = {}, {}, {}
        for path in sorted(glob.glob("crates/*/specs/*.antt")):
            source = text(path)
            self.imports[path] = imports(source)
            names = self.specs[path] = {}
            for definition in specs_of(path, source.split("\n")):
                names[definition.name] = definition
                if definition.lines[0].strip().startswith("pub data"):
                    # the name of a case leads to its type
                    cases = re.findall(r"^ +(\w+) :", "\n".join(definition.lines), re.M)
                    names.update(dict.fromkeys(cases, definition))
        for path in sorted(glob.glob("crates/*/src/**/*.rt", recursive=True)):
            for definition in types_of(path, text(path)):
                self.types.setdefault(path.split("/")[1], {})[definition.name] = definition
        for names in [*self.specs.values(), *self.types.values()]:
            for definition in set(names.values()):
                self.resolve(definition)

    def find(self, module, name):
        """Returns the definition of a name in a module; None if it is one of the toolchain."""
        parts = module.split(".")
        if len(parts) > 2 and parts[1] == "specs":
            if parts[2] == "declared":
                kind = parts[-2] if parts[-1] == "TheVariants" else parts[-1]
                return self.types.get(parts[0], {}).get(kind)
            return self.specs.get(f"crates/{parts[0]}/specs/{parts[2]}.antt", {}).get(name)
        return None

    def named(self, path, imported, word):
        """Returns what a word of a file stands for: a definition, a name of the toolchain, or None."""
        first, _, rest = word.partition(".")
        module, name = imported.get(first, (None, None))
        if module:
            name = name or rest.split(".")[0]
            is_ours = os.path.isdir(f"crates/{module.split('.')[0]}")
            return self.find(module, name) if is_ours else f"{module}.{name}"
        return self.specs.get(path, {}).get(first)

    def resolve(self, definition):
        is_type = definition.file.endswith(".rt")
        body = "\n".join([definition.module, *code(definition.lines)])
        # the name of a field or of a case does not use what else has that name
        body = re.sub(r"^ *pub \w+ ?:|^ +[A-Z]\w*" if is_type else r"^ *pub \w+ ?:", "", body, flags=re.M)
        for word in WORD.findall(body):
            if is_type:
                # a name that only one type has is that type, whatever its crate
                having = [names[word] for names in self.types.values() if word in names]
                found = self.types[definition.file.split("/")[1]].get(word) or (having[0] if len(having) == 1 else None)
            else:
                found = self.named(definition.file, self.imports[definition.file], word)
            if isinstance(found, str):
                definition.outside.add(found)
            elif found and found is not definition and found not in definition.uses:
                definition.uses.append(found)

    def clause(self, path, function, clause):
        """Returns the text of a clause of a function's contract, and the definitions that it names."""
        source = self.text(path)
        start = re.search(rf"\bfn {function}\b", source).start()
        head = re.compile(rf"ensures {clause + ' ' if clause else ''}(?=\{{)").search(source, start)
        end = source.index("}", head.end()) + 1
        while source.count("{", head.end(), end) != source.count("}", head.end(), end):
            end = source.index("}", end) + 1
        names = imports(source)
        roots = []
        for word in WORD.findall(source[head.end() : end]):
            found = self.named(path, names, word)
            if isinstance(found, Definition) and found not in roots:
                roots.append(found)
        return source[head.start() : end], roots

    def below(self, roots):
        """Returns these definitions and all that they name, directly or not, each before those that it names."""
        order, seen = [], set()

        def visit(definition):
            seen.add(id(definition))
            for used in reversed(definition.uses):
                if id(used) not in seen:
                    visit(used)
            order.append(definition)

        for root in reversed(roots):
            if id(root) not in seen:
                visit(root)
        return order[::-1]

    def theorems(self):
        """Yields for each theorem its title, its file and function, its clause, and the definitions below it."""
        for title, path, function, clause in THEOREMS:
            quoted, roots = self.clause(path, function, clause)
            yield title, path, function, quoted, self.below(roots)


def counts(below):
    """Returns how many definitions, lines, files and crates these are."""
    files = {it.file for it in below}
    return len(below), sum(len(code(it.lines)) for it in below), len(files), len({file.split("/")[1] for file in files})


def written(text):
    """Returns the whole file: each theorem with its clause, its counts, and its definitions that no earlier one has."""
    head = "Written by `tools/docs --definitions`. A definition stands before those that it names, and once."
    out, seen = ["# Definitions", "", head, ""], set()
    for title, path, function, quoted, below in Definitions(text).theorems():
        new = [it for it in below if id(it) not in seen]
        seen.update(id(it) for it in new)
        number, lines, files, crates = counts(below)
        outside = sorted(set().union(*[it.outside for it in below]))
        counted = f"{number} definitions, {lines} lines, {files} files, {crates} crates"
        out += [f"## {title}", "", f"{counted}; {len(new)} stand below, the others above.", ""]
        out += ["```", f"// {path}: {function}", quoted, "```", ""]
        for it in new:
            context = [it.module] if it.module else []
            out += [f"### {it.name}", "", f"{it.file}", "", "```", *it.comment, *context, *it.lines, "```", ""]
        out += textwrap.wrap(f"{len(outside)} names of the toolchain: " + ", ".join(outside), 118) + [""]
    return "\n".join(out)
