"""The parts of docs/GUARANTEES.md that are made of docs/promises.txt and of what the program reaches: the list of functions that it doesn't call,
and the table of promises."""
import os
import re
import sys

ROOT = os.path.dirname(os.path.dirname(os.path.dirname(os.path.abspath(__file__))))
sys.path.insert(0, os.path.join(ROOT, "tools"))
import hls_docs

# a link to a source: the name, the path, the crate, the part of the crate and the module
LINK = re.compile(r"\[`([^`]+)`\]\(\.\./(crates/(\w+)/(src|specs)/([\w/]+)\.(?:rt|antt))\)")
# a link with several names, which is one for each
MANY = re.compile(r"\[((?:`[^`]+`, )+`[^`]+`)\]\(([^)]+)\)")
# what a promise says of what isn't proved
OPEN = re.compile(r"\b[Tt]ested\b|\*Open\*|\b[Nn]o (?:contract|law|clause)\b|\bseen in\b|isn't (?:bounded|stated)|\bis measured\b")

LIST = "- Some functions and types are for libraries and tests. The program doesn't call them, so a promise about them says nothing about the program: "
HEADING = "## From each promise to the program"
TABLE = HEADING + """

Each promise with its laws and the functions that carry it. *Closed*: `main` reaches each of these functions, and given the [premises](#premises-by-name) nothing of the promise is open or only tested. *Laws alone*: no function carries it, and its laws speak of what others return. `out/docs/CLAUSES.md` has the same names with links. `tests/gate/reference --mend` writes this table, and the list in the head, from `docs/promises.txt` and the code in the built libraries; `--check` compares them.

| Promise | Laws | Functions | In the program |
|---|---|---|---|
"""


def one_by_one(text):
    return MANY.sub(lambda it: ", ".join("[%s](%s)" % (name, it.group(2)) for name in it.group(1).split(", ")), text)


class Carrier:
    """A function, a law or a type that a promise names."""

    def __init__(self, program, source, name):
        calls = hls_docs.calls_named(source, name)
        self.crate = source.crate
        self.name = calls[0].full() if calls else name
        self.is_law = bool(calls) and all(program.is_law(source, it) for it in calls)
        found = [program.reaches(source, it) for it in calls] or [program.uses_type(source, name)]
        self.is_missing, self.is_reached = None in found, all(found)


class Promises:
    """The promises with what carries each."""

    def __init__(self, repo, program):
        self.text = hls_docs.text_of(os.path.join(ROOT, hls_docs.GUARANTEES))
        self.open = hls_docs.open_places()
        self.carriers = {title: [Carrier(program, repo.by_path[it.path], it.name) for it in items if it.kind == "call"]
                         for title, items in hls_docs.promises()}
        linked = [it.group(1, 2) for it in LINK.finditer(one_by_one(self.text)) if it.group(4) == "src"]
        self.all = [it for many in self.carriers.values() for it in many] + [Carrier(program, repo.by_path[path], name) for name, path in linked]

    def uncalled(self):
        """What is no law and isn't reached: the names by their crates."""
        found = {}
        for it in self.all:
            if not it.is_law and not it.is_reached:
                found.setdefault(it.crate, set()).add(it.name)
        return found

    def list_line(self):
        return LIST + "; ".join("%s of `%s`" % (listed(sorted(names)), crate) for crate, names in sorted(self.uncalled().items())) + "."

    def row(self, title):
        carriers = self.carriers.get(title, [])
        functions = [it for it in carriers if not it.is_law]
        uncalled = [it.name for it in functions if not it.is_reached]
        said = ["not called: %s" % listed(uncalled)] if uncalled else [] if functions else ["laws alone"]
        said += ["open: %s" % self.open[title]] if title in self.open else []
        cells = (title, coded([it.name for it in carriers if it.is_law]), coded([it.name for it in functions]), "; ".join(said) or "closed")
        return "| %s |\n" % " | ".join(cells)

    def table(self):
        return TABLE + "".join(self.row(it[2]) for it in hls_docs.stated_promises())

    def written(self):
        """The document with both parts."""
        text = re.sub(r"(?m)^%s.*$" % re.escape(LIST), lambda it: self.list_line(), self.text)
        return text.partition("\n" + HEADING)[0].rstrip("\n") + "\n\n" + self.table()


def coded(names):
    return ", ".join("`%s`" % it for it in dict.fromkeys(names))


def listed(names):
    """Names as a list in a sentence."""
    return re.sub(r", (?=[^,]*$)", " and ", coded(names))


def lines_of(text):
    """The lines of a document; of the list of functions one for each name."""
    found = []
    for line in text.splitlines():
        found += names_in(line) if line.startswith(LIST) else [line]
    return found


def names_in(line):
    """A line for each name in the list of functions."""
    parts = [it.partition(" of ") for it in line[len(LIST):].rstrip(".").split("; ")]
    return ["the program doesn't call %s of %s" % (name, crate) for names, _, crate in parts for name in re.findall(r"`[\w:]+`", names)]


def faults(repo, program):
    """What is wrong with both parts of docs/GUARANTEES.md, and promises that don't say in docs/promises.txt what is open."""
    made = Promises(repo, program)
    found = ["the library of %s has no %s: it isn't of these sources" % it for it in sorted({(it.crate, it.name) for it in made.all if it.is_missing})]
    found += [] if LIST in made.text else ["%s has no line %r" % (hls_docs.GUARANTEES, LIST)]
    there, wanted = lines_of(made.text), lines_of(made.written())
    lacking = [it for it in wanted if it not in there]
    rows = [it.split(" | ")[0] for it in lacking]
    found += ["%s lacks, for `tests/gate/reference --mend`: %s" % (hls_docs.GUARANTEES, it) for it in lacking]
    return found + ["%s has wrongly: %s" % (hls_docs.GUARANTEES, it) for it in there if it not in wanted and it.split(" | ")[0] not in rows]


def open_faults():
    """Promises that say what isn't proved, without a line in docs/promises.txt."""
    places = hls_docs.open_places()
    return ["%s: %r has no line 'open: ', but its text says what isn't proved" % (hls_docs.PROMISES, title)
            for _, _, title, text in hls_docs.stated_promises() if OPEN.search(text) and title not in places]


def link_faults():
    """What promises link and docs/promises.txt doesn't name."""
    named = {title: [(it.path, it.name.split("::")[-1]) for it in items] for title, items in hls_docs.promises()}
    return ["%s: %r has no %s, which it links" % (hls_docs.PROMISES, title, it.group(1)) for _, _, title, text in hls_docs.stated_promises()
            for it in LINK.finditer(one_by_one(text)) if (it.group(2), it.group(1).split("::")[-1]) not in named.get(title, [])]
