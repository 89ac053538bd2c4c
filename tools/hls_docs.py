"""Reads the sources and generates the documents that derive from them. `tools/docs` is the command; the gate's checks import this module."""
import os
import re

ROOT = os.path.dirname(os.path.dirname(os.path.abspath(__file__)))
GUARANTEES = "docs/GUARANTEES.md"
PROMISES = "docs/promises.txt"
EXAMPLES = "docs/examples.txt"
MEANINGS = "crates/hls_commands/src/meanings.rt"
WIDTH = 110
# the line on which a source or a script defines a name
DEFINED = r"(?m)^\s*(#\[test\]\s+)?(?:pub )?(fn|const|static|def|macro_rules!)\s+%s\b"


# Files.

def text_of(path):
    with open(path, encoding="utf-8") as file:
        return file.read()


def crates_in_order():
    """Each crate of crates.txt with its comment line."""
    said, found = "", []
    for line in text_of(os.path.join(ROOT, "crates.txt")).splitlines():
        if line.startswith("#"):
            said = line.lstrip("# ").strip()
        elif ":" in line:
            found.append((line.partition(":")[0].strip(), said))
            said = ""
    return found


def uses():
    """The libraries that each crate uses, by its name."""
    used = {}
    for line in text_of(os.path.join(ROOT, "crates.txt")).splitlines():
        name, colon, libraries = line.partition("#")[0].partition(":")
        if colon:
            used[name.strip()] = libraries.split()
    return used


def uses_of(crate):
    """The crates of this repository that a crate uses."""
    used = uses()
    return [it for it in used[crate] if it in used]


def crates_of(program):
    """The crates that a program consists of."""
    used = uses()
    found, left = [], [program]
    while left:
        crate = left.pop()
        if crate in used and crate not in found:
            found.append(crate)
            left += used[crate]
    return found


def files(folder, ending):
    for at, folders, names in os.walk(folder):
        folders.sort()
        for name in sorted(names):
            if name.endswith(ending):
                yield os.path.join(at, name)


# Sources.

def without_texts(source):
    """The source with its comments and string literals blanked; every other character keeps its position."""
    blanked = list(source)

    def blank(begin, end):
        for n in range(begin, end):
            if blanked[n] != "\n":
                blanked[n] = " "

    at = 0
    quoted = re.compile(r"//[^\n]*|/\*.*?\*/|b?\"(?:\\.|[^\"\\])*\"|b?'(?:\\.[^']*|[^'\\\n])'", re.S)
    for found in quoted.finditer(source, at):
        blank(found.start(), found.end())
    return "".join(blanked)


def closing(text, at):
    """The position of the bracket that closes the one at this position."""
    pairs = {"{": "}", "(": ")", "[": "]"}
    opens, closes, depth = text[at], pairs[text[at]], 0
    for n in range(at, len(text)):
        depth += (text[n] == opens) - (text[n] == closes)
        if depth == 0:
            return n
    raise ValueError("unclosed bracket")


def without_arrays(text, at):
    """The text with everything in square brackets up to the next brace blanked, since an array's type has a semicolon."""
    ends = text.find("{", at)
    part = re.sub(r"\[[^\[\]]*\]", lambda it: " " * len(it.group(0)), text[at:ends if ends >= 0 else len(text)])
    return text[:at] + part + text[at + len(part):]


def after_angles(text, at):
    """The position after <..>, if such brackets open here."""
    if text[at:at + 1] != "<":
        return at
    depth = 0
    for n in range(at, len(text)):
        depth += (text[n] == "<") - (text[n] == ">" and text[n - 1] != "-" and text[n - 1] != "=")
        if depth == 0:
            return n + 1
    raise ValueError("unclosed angle bracket")


def parameters(text):
    """The names between the commas outside of brackets."""
    depth, found = 0, [""]
    for n, letter in enumerate(text):
        depth += (letter in "([{<") - (letter in ")]}" or letter == ">" and text[n - 1:n] != "-")
        if letter == "," and depth == 0:
            found.append("")
        else:
            found[-1] += letter
    named = []
    for it in found:
        word = re.sub(r"^\s*(?:&\s*)?(?:'\w+\s+)?(?:mut\s+)?", "", it.partition(":")[0]).strip()
        if word:
            named.append(word)
    return named


def first_sentence(lines):
    """The first sentence of a doc comment."""
    said = ""
    for line in lines:
        line = line.strip()[3:].strip()
        if not line or line.startswith(("|", "```", "- ", "#")):
            break
        said += " " + line
    said = re.sub(r"\[(`[^`]*`)\](\([^)]*\))?", r"\1", said.strip())
    end = re.search(r"[.:](?= [A-Z`])|\.$", said)
    return said[:end.start()].rstrip(".:") + "." if end else said


def leaves(tree):
    """The paths of an import, each with its alias, empty if it has none: `a.{b.{c, d as e}, f}` has three."""
    path, brace, inner = tree.strip().partition("{")
    if not brace:
        name, _, alias = path.partition(" as ")
        return [(name.strip(), alias.strip())]
    depth, parts = 0, [""]
    for letter in inner.rpartition("}")[0]:
        depth += (letter == "{") - (letter == "}")
        if letter == "," and depth == 0:
            parts.append("")
        else:
            parts[-1] += letter
    return [(path + name, alias) for part in parts if part.strip() for name, alias in leaves(part)]


def brought_in(before, text):
    """The definitions that `use` imports: by name, the crate, the module and the name there; a module by its alias."""
    found = {}
    for use in re.finditer(before + r"use\s+Rattle\.([^;\n]+)", text):
        for path, alias in leaves(use.group(1)):
            crate, _, path = path.partition(".")
            if not path.startswith("specs.") or path.startswith("specs.declared."):
                continue
            path = path[len("specs."):]
            module, _, name = path.rpartition(".")
            is_module = alias and "{" not in use.group(1)
            found[alias or name] = (crate, path, None) if is_module else (crate, module, name)
    return found


class Call:
    """A function: its type and name, the first sentence of its comment, and its clauses (kind, label, definitions cited, text)."""

    def __init__(self, owner, name, takes, gives, says, clauses, is_law, is_public, line):
        self.owner, self.name, self.takes, self.gives, self.says = owner, name, takes, gives, says
        self.clauses, self.is_law, self.is_public, self.line = clauses, is_law, is_public, line
        # where its body is in the source
        self.body = 0, 0

    def full(self):
        return "%s::%s" % (self.owner, self.name) if self.owner else self.name


class Source:
    """A source file: its calls, the names of its types, and the definitions that it imports."""

    def __init__(self, crate, path):
        self.crate, self.path = crate, path
        self.text = text_of(path)
        self.bare = without_texts(self.text)
        self.cited = self.imports()
        self.types = re.findall(r"\b(?:struct|enum|trait|type|const|static)\s+(\w+)", self.bare)
        self.calls = []
        self.walk(0, len(self.bare), None, False)

    def imports(self):
        """The definitions that a `ghost use` imports."""
        return brought_in(r"\bghost\s+", self.bare)

    def walk(self, begin, end, owner, is_public_trait):
        """Reads the items between two positions."""
        item = re.compile(r"\b(?:(pub(?:\([a-z ]+\))?)\s+)?(?:(?:const|unsafe|ghost)\s+)*(fn|impl|trait|macro_rules!)\b|#\[cfg\(test\)\]\s*mod\s+\w+\s*\{|\{")
        at = begin
        while at < end:
            found = item.search(self.bare, at, end)
            if not found:
                return
            kind = found.group(2)
            if kind == "fn":
                at = self.function(found, owner, is_public_trait)
            elif kind in ("impl", "trait"):
                at = self.block(found, kind)
            else:
                opens = self.bare.index("{", found.start())
                at = closing(self.bare, opens) + 1

    def block(self, found, kind):
        """An impl or a trait: the items inside belong to its type."""
        at = after_angles(self.bare, found.end())
        opens = self.bare.index("{", at)
        if kind == "impl" and ";" in self.bare[at:opens]:
            return found.end()
        head = re.sub(r"\s+", " ", self.bare[at:opens]).strip()
        ends = closing(self.bare, opens)
        if kind == "trait":
            owner = re.match(r"\s*(\w+)", head).group(1)
            self.walk(opens + 1, ends, owner, found.group(1) == "pub")
        else:
            trait, _, target = head.rpartition(" for ")
            target = re.split(r" where ", target)[0]
            owner = re.match(r"[&\s]*(?:\w+::)*(\w+)", target)
            named = owner.group(1) if owner else target
            if not trait:
                self.walk(opens + 1, ends, named, False)
        return ends + 1

    def function(self, found, owner, is_public_trait):
        bare = self.bare
        name = re.compile(r"\s+(\w+)").match(bare, found.end())
        if not name:
            return found.end()
        at = after_angles(bare, name.end())
        opens = bare.index("(", at)
        ends = closing(bare, opens)
        takes = parameters(bare[opens + 1:ends])
        stops = re.compile(r"\brequires\b|\bensures\b|\bwhere\b|[{;]").search(without_arrays(bare, ends), ends)
        gives = re.sub(r"\s+", " ", bare[ends + 1:stops.start()]).strip()
        gives = gives[2:].strip() if gives.startswith("->") else ""
        at, clauses = stops.start(), []
        if stops.group(0) == "where":
            at = re.compile(r"\brequires\b|\bensures\b|[{;]").search(without_arrays(bare, stops.end()), stops.end()).start()
        clause = re.compile(r"\s*(requires|ensures)\s*(\w+)?\s*(?=\{)")
        while True:
            one = clause.match(bare, at)
            if not one:
                break
            last = closing(bare, one.end())
            said = re.sub(r"\s+", " ", self.text[one.end() + 1:last]).strip()
            clauses.append((one.group(1), one.group(2), self.cites(bare[one.end() + 1:last]), said))
            at = last + 1
        body = re.compile(r"\s*([{;])").match(bare, at)
        if not body:
            raise ValueError("%s: can't read the clauses of %s" % (self.path, name.group(1)))
        last = at
        is_law = False
        if body.group(1) == "{":
            last = closing(bare, body.end() - 1)
            is_law = not self.text[body.end():last].strip() and not takes and bool(clauses)
        is_public = found.group(1) == "pub" or is_public_trait
        self.calls.append(Call(owner, name.group(1), takes, gives, self.doc(found.start()), clauses, is_law, is_public,
                               self.text.count("\n", 0, found.start()) + 1))
        self.calls[-1].body = body.end(), max(body.end(), last)
        return last + 1

    def doc(self, at):
        """The first sentence of the doc comment above a position."""
        lines = self.text[:at].splitlines()
        if lines and not lines[-1].strip():
            lines.pop()
        taken = []
        while lines and (lines[-1].strip().startswith("///") or re.match(r"\s*(#\[|\)\]|//)", lines[-1])):
            line = lines.pop()
            if line.strip().startswith("///"):
                taken.insert(0, line)
        return first_sentence(taken)

    def cites(self, clause):
        """The definitions that a clause names, in order, each once."""
        found = []
        for word in re.finditer(r"(?<![\w.])(\w+)(?:\.(\w+))?", clause):
            meant = self.cited.get(word.group(1))
            if meant and meant[2] is None:
                meant = (meant[0], meant[1], word.group(2)) if word.group(2) else None
            if meant and meant not in found:
                found.append(meant)
        return found


def is_program(sources):
    return any(os.path.basename(it.path) == "main.rt" for it in sources)


def visible(crate, sources):
    """The calls that another crate can name, each with its path, and the names re-exported from other crates."""
    top = next((it for it in sources if os.path.basename(it.path) in ("lib.rt", "main.rt")), None)
    if top is None:
        return [], []
    at = os.path.join(ROOT, "crates", crate, "src")
    of_program = is_program(sources)
    by_module = {os.path.relpath(it.path, at)[:-3].replace(os.sep, "::"): it for it in sources}
    exported, others, modules = {}, [], {}

    def enter(module, source, is_open):
        modules[module] = is_open
        for found in re.finditer(r"(?m)^\s*(pub )?mod (\w+);", source.bare):
            below = found.group(2) if module in ("lib", "main") else module + "::" + found.group(2)
            if below in by_module:
                enter(below, by_module[below], is_open and (bool(found.group(1)) or of_program))
        for found in re.finditer(r"\bpub\s+use\s+([\w:]+?)(?:::\{([^}]*)\})?\s*;", source.bare):
            path, names = found.groups()
            if names is None:
                path, _, names = path.rpartition("::")
            for name in (it.strip() for it in names.split(",")):
                if not name:
                    continue
                if path.split("::")[0] in ("crate", "self"):
                    path = path.partition("::")[2]
                whole = path + "::" + name
                if path in by_module:
                    exported[(path, name)] = True
                elif path.startswith("hls_"):
                    others.append(whole)

    def path_of(module, name):
        """The path by which another crate names what a module declares; None if it can't."""
        if module in ("lib", "main") or (module, name) in exported:
            return crate + "::"
        return crate + "::" + module + "::" if modules.get(module) else None

    enter("main" if of_program else "lib", top, True)
    # a type's calls belong to the type, whichever module they are written in
    declared = {module: set(re.findall(r"\bpub\s+(?:struct|enum|trait)\s+(\w+)", it.bare)) for module, it in by_module.items()}
    shown = []
    for module, source in by_module.items():
        for call in (it for it in source.calls if it.is_public):
            path = path_of(module, call.owner or call.name)
            if path is None and call.owner and call.owner not in source.types:
                found = {path_of(other, call.owner) for other, names in declared.items() if call.owner in names} - {None}
                path = found.pop() if len(found) == 1 else None
            if path:
                shown.append((path, source, call))
    return shown, sorted(set(others))


# Definitions.

class Specs:
    """The definitions of all crates, by crate and file, with those that each cites."""

    def __init__(self, crates):
        self.files, self.at = {}, {}
        for crate in crates:
            folder = os.path.join(ROOT, "crates", crate, "specs")
            for path in files(folder, ".antt"):
                module = os.path.relpath(path, folder)[:-5].replace(os.sep, ".")
                self.files[(crate, module)] = self.read(path)
                self.at[(crate, module)] = os.path.relpath(path, ROOT)

    def read(self, path):
        text = re.sub(r"(?m)--.*$", "", text_of(path))
        uses, defs = brought_in(r"(?m)^\s*", text), {}
        begins = list(re.finditer(r"(?m)^\s*(?:(?:abbrev|unfoldable)\s+pub|pub\s+(?:record|data))\s+([\w?]+)", text))
        for n, found in enumerate(begins):
            end = begins[n + 1].start() if n + 1 < len(begins) else len(text)
            defs[found.group(1)] = text[found.start():end]
        fields = {name: re.findall(r"(?m)^\s+pub\s+(\w+)\s*:", body) for name, body in defs.items()}
        return {"uses": uses, "defs": defs, "fields": fields}

    def has(self, crate, module, name):
        return name in self.files.get((crate, module), {"defs": {}})["defs"]

    def cites(self, crate, module, name):
        """The definitions that a definition names directly."""
        file = self.files.get((crate, module))
        body = file["defs"].get(name, "") if file else ""
        found = []
        for word in re.finditer(r"(?<![\w.])(\w+)(?:\.(\w+))?", body):
            one, part = word.groups()
            if one in file["uses"]:
                meant = file["uses"][one]
                if meant[2] is None:
                    meant = (meant[0], meant[1], part)
            elif one in file["defs"] and one != name:
                meant = (crate, module, one)
            else:
                continue
            if meant not in found:
                found.append(meant)
        return found

    def reaches(self, froms):
        """All definitions that the given ones cite, directly or through others."""
        seen, ahead = set(), list(froms)
        while ahead:
            one = ahead.pop()
            if one in seen or one[2] is None:
                continue
            seen.add(one)
            ahead.extend(self.cites(*one))
        return seen


class Repository:
    def __init__(self):
        self.crates = crates_in_order()
        self.sources = {}
        for crate, _ in self.crates:
            folder = os.path.join(ROOT, "crates", crate, "src")
            self.sources[crate] = [Source(crate, path) for path in files(folder, ".rt")]
        self.specs = Specs([crate for crate, _ in self.crates])
        self.by_path = {os.path.relpath(it.path, ROOT): it for many in self.sources.values() for it in many}


# The promises, the worked examples and the refusals.

class Item:
    """A call or a definition that carries a promise: its file, its name, the labels that matter (none: all), and notes."""

    def __init__(self, kind, path, name, labels, number):
        self.kind, self.path, self.name, self.labels, self.number = kind, path, name, labels, number
        self.through, self.notes = [], []


def promises():
    """The entries of docs/promises.txt, in order: each title with its items."""
    found = []
    for number, line in enumerate(text_of(os.path.join(ROOT, PROMISES)).splitlines(), 1):
        item = re.fullmatch(r"(definition )?(hls_\w+)/([\w/]+) (\S+?)(?:: (.+))?", line)
        through = re.fullmatch(r"  through(?: (\w+))?: (.+)", line)
        if re.fullmatch(r"\[.+\]", line):
            found.append((line[1:-1], []))
        elif item:
            kind, crate, module, name, labels = item.groups()
            path = "crates/%s/%s/%s.%s" % (crate, "specs" if kind else "src", module, "antt" if kind else "rt")
            found[-1][1].append(Item("definition" if kind else "call", path, name, labels.split() if labels else [], number))
        elif through:
            found[-1][1][-1].through.append((through.group(1), through.group(2).split(", ")))
        elif line.startswith("  note "):
            found[-1][1][-1].notes.append(line[7:])
        elif line and not line.startswith(("#", "open: ")):
            raise ValueError("%s:%d: can't read %r" % (PROMISES, number, line))
    return found


def open_places():
    """What isn't proved of promises, by their titles, as docs/promises.txt says."""
    found, title = {}, ""
    for line in text_of(os.path.join(ROOT, PROMISES)).splitlines():
        if re.fullmatch(r"\[.+\]", line):
            title = line[1:-1]
        elif line.startswith("open: "):
            found[title] = line[len("open: "):]
    return found


def stated_promises():
    """The promises of docs/GUARANTEES.md, in order: the line's number, the section, the title, and the text."""
    found, section = [], ""
    for number, line in enumerate(text_of(os.path.join(ROOT, GUARANTEES)).splitlines(), 1):
        heading = re.match(r"## (.*)", line)
        section = heading.group(1) if heading else section
        item = re.match(r"- \*\*(.+?)\.\*\* (.*)", line)
        if item:
            found.append((number, section, item.group(1), item.group(2)))
    return found


def examples():
    """The sections of docs/examples.txt: each title with its rows, and each row's example and places (file and name)."""
    found = []
    for number, line in enumerate(text_of(os.path.join(ROOT, EXAMPLES)).splitlines(), 1):
        if re.fullmatch(r"\[.+\]", line):
            found.append((line[1:-1], []))
        elif line.startswith("  "):
            path, _, name = line.strip().partition(": ")
            name, _, remark = name.partition(" -- ")
            found[-1][1][-1][1].append((path, name, remark))
        elif line and not line.startswith("#"):
            found[-1][1].append((line, []))
    return found


def meanings():
    """The refusals' names and what each means, in the order of the source."""
    text = re.search(r'pub const MEANINGS: &str = "(.*?)(?<!\\)";', text_of(os.path.join(ROOT, MEANINGS)), re.S).group(1)
    lines = re.sub(r"\\\n\s*", "", text).replace('\\"', '"').replace("\\\\", "\\").splitlines()
    return [tuple(line.split(": ", 1)) for line in lines]


def serve_options():
    """The options of `serve` in `--help`, each with its default and its range, empty if the text has none."""
    text = re.search(r'const HELP: &str = "(.*?)(?<!\\)";', text_of(os.path.join(ROOT, "crates/hls_origin/src/main.rt")), re.S).group(1)
    part = re.search(r"(?ms)^serve: .*?(?=^Each option)", text).group(0)
    found = {}
    for name, said in re.findall(r"(?ms)^  (--[\w-]+)(?: \S+)?\s+(.*?)(?=^  --|\Z)", part):
        default = re.search(r"; (\d+)(?: if not given)?\s*\Z", said)
        limits = re.search(r"\d+ to \d+", said)
        found[name] = (default.group(1) if default else "", limits.group(0) if limits else "")
    return found


# The generated documents.

REFERENCE_HEAD = """# Reference

Each public call of the crates, lowest crate first, with the labels of its clauses and the definitions that they cite. GUARANTEES.md
has the promises, CLAUSES.md the calls of each promise, and CRATES.md the purpose of each crate.

*Asks* is what a caller must ensure before the call (`requires`), *gives* what holds after it (`ensures`). A name in code font
before the colon is the clause's label. A clause that cites no definition of this repository is printed if it is short. Every
call is safe, and it returns unless it waits for another thread or the system; a call without clauses promises no more. A law is
a call without a body: its clause is a theorem.
"""
CLAUSES_HEAD = """# Clauses by promise

Each promise of GUARANTEES.md with the public calls and laws whose contracts state it, their clauses, and the definitions that these
cite. *Asks* is a `requires`, *gives* an `ensures`; a name in code font before the colon is the clause's label. *Through* precedes
definitions that the clause reaches through those that it cites. REFERENCE.md has every public call.
"""
CRATES_HEAD = """# The crates

Each crate, lowest first: its purpose, the crates that it uses, its public items, and its definitions. Definitions in the first list
are cited by public clauses and laws, so the crate's promises depend on them; the others only serve proofs, code or tests.
ARCHITECTURE.md has an overview, REFERENCE.md each public call with its clauses.
"""
EXAMPLES_HEAD = """# Worked examples

Each worked example and the tests that show it. Expected values are computed independently of the program.
Files under `crates/` are proved and run by the gate; `tests/gate/programs`, `tests/gate/worked_examples`, `tests/gate/out_of_memory_serve` and
`tests/gate/serve_options` run the program that the gate built, and `tests/gate/calls` compiles a crate of tests without a proof.

An init section has 600 bytes and a unit 1000, with 90000 ticks a second; the target is 6 s, the preferred length 4 s. `[0,4)` is a
unit from second 0 to second 4. Exhausted job ids aren't shown, since 2^53 jobs would have to be added; by its contract `add` then
refuses.
"""
REFUSALS_HEAD = """# What each refusal means, and what to change

`hls_origin explain NAME` prints a name's line, and `hls_origin explain` all names. The manual page hls_origin-refusals(7) has all lines.
REFUSALS.md says when each refusal occurs, and in which order they are checked.
"""


class Links:
    """Links to sources and documents, relative to a folder; in the package there are none to sources."""

    def __init__(self, folder, is_plain):
        self.folder, self.is_plain = folder, is_plain

    def relative(self, path):
        return os.path.relpath(os.path.join(ROOT, path), self.folder)

    def source(self, name, path):
        return "`%s`" % name if self.is_plain else "[`%s`](%s)" % (name, self.relative(path))

    def document(self, name):
        return "[%s](%s)" % (name, name if self.is_plain else self.relative("docs/" + name))

    def text(self, markdown):
        """A text of docs/ with its links made relative to the folder."""
        def led(found):
            words, path = found.groups()
            if path.startswith("../"):
                return words if self.is_plain else "[%s](%s)" % (words, self.relative(path[3:]))
            path = "GUARANTEES.md" + path if path.startswith("#") else path
            return "[%s](%s)" % (words, path if self.is_plain else self.relative("docs/" + path))

        return re.sub(r"\[([^\]]*)\]\(((?!https?:)[^)]*)\)", led, markdown)


def definition_link(repo, links, crate, module, name):
    """A definition as a link; None if it is a library's."""
    at = repo.specs.at.get((crate, module))
    return links.source(name, at) if at else None


def clause_lines(repo, links, clauses, is_whole=False):
    """Each clause on a line of its own; each further definition on the next."""
    lines = []
    for kind, label, cited, said in clauses:
        begin = "- %s%s: " % ("asks" if kind == "requires" else "gives", " `%s`" % label if label else "")
        found = [it for it in (definition_link(repo, links, *one) for one in cited) if it]
        if not found:
            lines.append(begin + ("`%s`" % said if is_whole or len(said) <= WIDTH - len(begin) else "see the source"))
            continue
        lines.append(begin + found[0] + ("," if len(found) > 1 else ""))
        for n, one in enumerate(found[1:], 2):
            lines.append("  " + one + ("," if n < len(found) else ""))
    return lines


def wrapped(text, first="", other=""):
    """A text in lines of bounded length."""
    lines, line = [], first
    for word in text.split():
        if len(line) + 1 + len(word) > WIDTH and line.strip():
            lines.append(line.rstrip())
            line = other
        line += word + " "
    lines.append(line.rstrip())
    return lines


def signature(path, call):
    takes = ", ".join(call.takes)
    gives = " → %s" % call.gives if call.gives else ""
    whole = "%s%s(%s)%s" % (path, call.full(), takes, gives)
    return whole if len(whole) <= WIDTH else "%s%s(%s)" % (path, call.full(), takes)


def sentence(text):
    return text[:1].upper() + text[1:].rstrip(".") + "."


def reference(repo, links):
    """Each public call of each crate, with its clauses."""
    crates = [it for it in repo.crates if not it[0].endswith("_tests")]
    lines = REFERENCE_HEAD.replace("GUARANTEES.md", links.document("GUARANTEES.md")).splitlines()
    lines += [""] + ["- [%s](#%s): %s" % (crate, crate, said) for crate, said in crates]
    for crate, said in crates:
        shown, others = visible(crate, repo.sources[crate])
        lines += ["", "## %s" % crate, ""] + wrapped(sentence(said))
        if is_program(repo.sources[crate]):
            lines += ["", "A program: no other crate calls it."]
        if others:
            lines += [""] + wrapped("Re-exported from other crates: %s." % ", ".join("`%s`" % it for it in others))
        last = None
        for path, source, call in sorted(shown, key=lambda it: (it[1].path, it[2].line)):
            if source.path != last:
                at = os.path.relpath(source.path, ROOT)
                lines += ["", "### %s" % links.source(os.path.relpath(source.path, os.path.join(ROOT, "crates", crate, "src")), at)]
                last = source.path
            lines += ["", "%s`%s`" % ("Law " if call.is_law else "", signature(path, call))]
            lines += wrapped(call.says) if call.says else []
            clauses = clause_lines(repo, links, call.clauses)
            lines += [""] + clauses if clauses else []
        if not shown:
            lines += ["", "No calls: its public items are definitions and types."]
    return "\n".join(lines) + "\n"


def clauses_by_promise(repo, links):
    """The clause index: each promise with its calls, their clauses and the definitions that these cite."""
    carried = dict(promises())
    lines, last = CLAUSES_HEAD.replace("GUARANTEES.md", links.document("GUARANTEES.md")).splitlines(), None
    for _, section, title, text in stated_promises():
        if section != last:
            lines += ["", "## " + section]
            last = section
        lines += ["", "### " + title, ""] + wrapped(links.text(text))
        items = carried.get(title, [])
        lines += [""] if items else []
        for item in items:
            lines += item_lines(repo, links, item)
    return "\n".join(lines) + "\n"


def item_lines(repo, links, item):
    """The lines of a call, with the clauses that matter and what these reach, or of a definition."""
    if item.kind == "definition":
        return ["- definition " + links.source(item.name, item.path)] + ["  - " + note for note in item.notes]
    calls = calls_of(repo, item)
    is_law = any(call.is_law for call in calls)
    is_hidden = bool(calls) and not any(call.is_public for call in calls)
    crate = item.path.split("/")[1]
    lines = ["- %s%s of `%s`%s" % ("law " if is_law else "", links.source(item.name, item.path), crate, " (not public)" if is_hidden else "")]
    lines += ["  " + it for it in clause_lines(repo, links, chosen_clauses(repo, item), True)]
    for label, names in item.through:
        found = [definition_link(repo, links, *one) + name[len(one[2]):] for name in names for one in reached(repo, item, label, name)]
        lines.append("  - through%s: %s" % (" `%s`" % label if label else "", ", ".join(found)))
    return lines + ["  - " + note for note in item.notes]


def calls_of(repo, item):
    return calls_named(repo.by_path[item.path], item.name) if item.path in repo.by_path else []


def chosen_clauses(repo, item):
    """The clauses of an item's calls: those with its labels, or all."""
    return [it for call in calls_of(repo, item) for it in call.clauses if not item.labels or it[1] in item.labels]


def reached(repo, item, label, name):
    """The definitions of a name that a clause reaches."""
    clauses = [it for call in calls_of(repo, item) for it in call.clauses if label is None or it[1] == label]
    return sorted(it for it in repo.specs.reaches([one for clause in clauses for one in clause[2]]) if it[2] == name.split(".")[0]
                  and it[:2] in repo.specs.at)


def calls_named(source, name):
    """The calls of a source that a name can mean."""
    parts = name.split("::")
    many = [it for it in source.calls if it.name == parts[-1]]
    if len(parts) > 1 and not parts[-2].startswith("hls_"):
        of_type = [it for it in many if it.owner == parts[-2]]
        return of_type or ([] if parts[-2][:1].isupper() else many)
    return many


def crate_says(sources):
    """The paragraphs of a crate's own comment (`//!` of lib.rt or main.rt)."""
    top = next(it for it in sources if os.path.basename(it.path) in ("lib.rt", "main.rt"))
    lines = re.match(r"(?://!.*\n)*", top.text).group(0).splitlines()
    return "\n".join(it[3:].strip() for it in lines).strip().split("\n\n")


def source_links(links, crate, text):
    """A comment with its links to definitions made relative to the folder, and its links to items replaced by names."""
    text = re.sub(r"\[`([^`]+)`\]\(\.\./(specs/[^)]+)\)", lambda it: links.source(it.group(1), "crates/%s/%s" % (crate, it.group(2))), text)
    return re.sub(r"\[(`[^`]+`)\](?:\([\w:]+\))?(?!\()", r"\1", text)


def public_types(crate, sources):
    """The public types, constants and macros of a crate, each by the name that another crate uses."""
    top = next(it for it in sources if os.path.basename(it.path) in ("lib.rt", "main.rt"))
    if is_program(sources):
        return []
    exported = {name.strip() for use in re.finditer(r"\bpub\s+use\s+[\w:]+?::(?:\{([^}]*)\}|(\w+))\s*;", top.bare)
                for name in (use.group(1) or use.group(2)).split(",") if not re.match(r"pub\s+use\s+(?:hls_|std|bytes)", use.group(0))}
    opened = set(re.findall(r"(?m)^\s*pub mod (\w+);", top.bare))
    found = []
    for source in sources:
        module = os.path.relpath(source.path, os.path.dirname(top.path))[:-3].split(os.sep)[0]
        for kind, name in re.findall(r"\bpub\s+(struct|enum|trait|type|const|static)\s+(\w+)", source.bare):
            if source is top or name in exported or module in opened:
                found.append(name if source is top or name in exported else module + "::" + name)
    found += [it + "!" for source in sources for it in re.findall(r"#\[macro_export\]\s*macro_rules!\s+(\w+)", source.bare)]
    return sorted(set(found))


def says_first(path):
    """The first sentence of a definitions file's comment."""
    said = re.match(r"((?:--.*\n)*)", text_of(path)).group(1)
    said = " ".join(it[2:].strip() for it in said.splitlines())
    return re.split(r"(?<=[.:;]) (?=[A-Z`])", said)[0].rstrip(".:; ")


def crates(repo, links):
    """The list of crates."""
    cited = public_definitions(repo)
    used = dict(re.findall(r"(?m)^(hls_\w+):(.*)$", text_of(os.path.join(ROOT, "crates.txt"))))
    lines = CRATES_HEAD.replace("ARCHITECTURE.md", links.document("ARCHITECTURE.md")).splitlines()
    lines += [""] + ["- [%s](#%s): %s" % (crate, crate, said) for crate, said in repo.crates]
    for crate, said in repo.crates:
        sources = repo.sources[crate]
        lines += ["", "## " + crate]
        for paragraph in [it for it in crate_says(sources) if it] or [sentence(said)]:
            lines += [""] + wrapped(source_links(links, crate, paragraph))
        uses = used.get(crate, "").split()
        lines += [""] + wrapped("Uses %s." % (", ".join("`%s`" % it for it in uses) if uses else "no other crate"), "- ", "  ")
        if crate.endswith("_tests"):
            continue
        shown, others = visible(crate, sources)
        calls = [] if is_program(sources) else shown
        for head, names in (("Types and constants", public_types(crate, sources)),
                            ("Calls", sorted({it[2].full() for it in calls if not it[2].is_law})),
                            ("Laws", sorted({it[2].full() for it in calls if it[2].is_law})),
                            ("Re-exported", others)):
            if names:
                lines += wrapped("%s: %s." % (head, ", ".join("`%s`" % it for it in names)), "- ", "  ")
        modules = sorted(it for it in repo.specs.at if it[0] == crate and it[1] != "Lib" and repo.specs.files[it]["defs"])
        others = sorted({it[0] for _, _, call in shown for clause in call.clauses for it in clause[2] if it[:2] in repo.specs.at} - {crate})
        if others and not is_program(sources):
            lines += wrapped("Its clauses cite definitions of %s." % ", ".join("`%s`" % it for it in others), "- ", "  ")
        first = {it: says_first(os.path.join(ROOT, repo.specs.at[it])) for it in modules}
        inner = [it for it in modules if it not in cited and first[it].startswith("For the proofs")]
        for head, wanted in (("Definitions that public clauses cite", True), ("Other definitions", False)):
            chosen = [it for it in modules if (it in cited) == wanted and it not in inner]
            lines += ["- %s:" % head] if chosen else []
            for it in chosen:
                lines += wrapped("%s: %s." % (links.source(it[1], repo.specs.at[it]), first[it]), "  - ", "    ")
        if inner:
            lines += wrapped("Definitions only for proofs: %s." % ", ".join(links.source(it[1], repo.specs.at[it]) for it in inner), "- ", "  ")
    return "\n".join(lines) + "\n"


def public_definitions(repo):
    """The files of definitions that the public clauses of the libraries cite."""
    libraries = [it for it, _ in repo.crates if not it.endswith("_tests") and not is_program(repo.sources[it])]
    return {one[:2] for crate in libraries for _, _, call in visible(crate, repo.sources[crate])[0]
            for _, _, definitions, _ in call.clauses for one in definitions}


def example_index(repo, links):
    """Each worked example with the tests that show it."""
    lines = EXAMPLES_HEAD.splitlines()
    for title, rows in examples():
        lines += ["", "## " + title, "", "| Example | Shown by |", "|---|---|"]
        for example, places in rows:
            shown = ["%s%s%s" % (links.source("%s: %s" % (path, name), path), ", line %d" % line_of(path, name) if line_of(path, name) else "",
                                 " (%s)" % remark if remark else "") for path, name, remark in places]
            lines.append("| %s | %s |" % (example, "; ".join(shown)))
    return "\n".join(lines) + "\n"


def line_of(path, name):
    """The line on which a file defines a name; 0 if nowhere."""
    at = os.path.join(ROOT, path)
    text = text_of(at) if os.path.isfile(at) else ""
    found = re.search(DEFINED % re.escape(name), text)
    return text.count("\n", 0, found.end()) + 1 if found else 0


def refusal_names(repo, links):
    """Each refusal's name with its meaning."""
    lines = REFUSALS_HEAD.replace("REFUSALS.md", links.document("REFUSALS.md")).splitlines() + [""]
    return "\n".join(lines + ["- `%s`: %s" % it for it in meanings()]) + "\n"


DOCUMENTS = {"REFERENCE.md": reference, "CLAUSES.md": clauses_by_promise, "CRATES.md": crates, "EXAMPLES.md": example_index,
             "REFUSAL-NAMES.md": refusal_names}


def write(folder, is_plain):
    """Writes all documents into a folder."""
    repo, links = Repository(), Links(os.path.abspath(folder), is_plain)
    os.makedirs(folder, exist_ok=True)
    for name, made in DOCUMENTS.items():
        with open(os.path.join(folder, name), "w", encoding="utf-8") as file:
            file.write(made(repo, links))
    return repo
