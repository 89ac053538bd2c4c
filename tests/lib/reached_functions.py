"""Which functions the program reaches from `main`, by the code in its built libraries.

A library keeps the code of its functions as JSON (`mir.json`). A function is reached if a reached one calls it or passes it on. A method of an
implementation is reached if reached code uses the implementation, and calls this method of its trait on a type that its caller chooses. Code
of the toolchain's libraries isn't read, and may call each method of their own traits.

The code of the program's own crate is in no library. What it calls is taken from its sources by name: of each library that it uses, the public
functions and types that its reached functions name.
"""
import json
import os
import re
import shutil
import sys

LIB = os.path.dirname(os.path.abspath(__file__))
ROOT = os.path.dirname(os.path.dirname(LIB))
sys.path.insert(0, os.path.join(ROOT, "tools"))
import hls_docs
from scripts import load_script

PROGRAM = "hls_origin"
# the begin of a function in mir.json, and what is in its code: calls, calls of a trait's method, implementations with their traits, types
FUNCTION = re.compile(r'\["([^"]+)",\{"lifetimes":\d+,"outlives":')
CALL = re.compile(r'"Fn":\["([^"]+)"')
METHOD = re.compile(r'"Method":\[\{"Given":(\d+)\},(\d+),')
IMPLEMENTATION = re.compile(r'"of":\{"of":"([^"]+)"|"methods":\[([^\]]*)\]')
METHOD_OF = re.compile(r'"method_of":\{"(Impl|Trait)":\["([^"]+)",(\d+)\]\}')
TYPE = re.compile(r'"name":"(hls_[^"]+)"')


class Function:
    """What a function's code names."""

    def __init__(self, text):
        self.text = text
        self.calls = set(CALL.findall(text))
        # the methods of traits that it calls on types which its caller chooses
        self.asked = set()
        found = METHOD.findall(text)
        if found:
            given = json.JSONDecoder().raw_decode(text, text.index('"generics":') + len('"generics":'))[0]["bounds"]
            self.asked = {(given[int(bound)]["of"], int(number)) for bound, number in found}
        # the implementations that it uses: each method with its trait's
        self.implementations = {}
        trait = None
        for of, methods in IMPLEMENTATION.findall(text):
            trait = of or trait
            self.implementations.update({name: (trait, number) for number, name in enumerate(re.findall(r'"([^"]+)"', methods))})

    def method_of(self):
        """A method's kind (`Impl` or `Trait`), the name of that implementation or trait, and its number there; None for other functions."""
        found = METHOD_OF.search(self.text)
        return (found.group(1), found.group(2), int(found.group(3))) if found else None


def functions_of(path):
    """The functions of a library by their names."""
    text = hls_docs.text_of(path)
    begins = list(FUNCTION.finditer(text))
    ends = [it.start() for it in begins[1:]] + [len(text)]
    return {it.group(1): Function(text[it.end():end]) for it, end in zip(begins, ends)}


class Reach:
    """The functions that are reached from some, and the methods of traits that these call."""

    def __init__(self, functions, ahead, asked, offered):
        self.functions, self.reached, self.asked = functions, set(), set(asked)
        # the methods that implement a trait's, of the implementations in use
        self.offered = {}
        ahead = ahead + self.offer(offered)
        while ahead:
            name = ahead.pop()
            if name in functions and name not in self.reached:
                self.reached.add(name)
                ahead += self.enter(functions[name])
        self.types = {it for name in self.reached for it in TYPE.findall(functions[name].text)}

    def enter(self, function):
        """Notes what a reached function names. Returns the functions that it reaches."""
        found = [*function.calls, *self.offer(function.implementations)]
        for one in function.asked - self.asked:
            self.asked.add(one)
            found += self.offered.get(one, ())
        return found

    def offer(self, implementations):
        """Notes implementations that are in use. Returns their methods that are called."""
        for name, of in implementations.items():
            self.offered.setdefault(of, []).append(name)
        return [name for name, of in implementations.items() if of in self.asked or not of[0].startswith("hls_")]


class OwnCode:
    """The functions of the program's own crate that `main` reaches, and their text, by name."""

    def __init__(self, sources):
        self.bodies, self.names = {}, set()
        self.text = "".join(self.read(it) for it in sources)
        ahead = ["main", *re.findall(r"\w+", self.text)]
        while ahead:
            name = ahead.pop()
            if name in self.bodies and name not in self.names:
                self.names.add(name)
                text = " ".join(self.bodies[name])
                self.text += text
                ahead += re.findall(r"\w+", text)
        self.words = set(re.findall(r"\w+", self.text))

    def read(self, source):
        """Keeps each body of a source by its function's name. Returns the rest, such as types and implementations of traits."""
        text = re.sub(r"\buse\b[^;]*;|\bfn\s+\w+", lambda it: " " * len(it.group(0)), source.bare)
        for call in source.calls:
            begin, end = call.body
            self.bodies.setdefault(call.name, []).append(text[begin:end])
            text = text[:begin] + " " * (end - begin) + text[end:]
        return text

    def calls(self, call):
        """Whether it names a function of a library."""
        if not call.owner:
            return re.search(r"(?<![\w.])%s\b" % call.name, self.text)
        return re.search(r"\b%s::%s\b|\.%s\s*(?:::<[^()]*>\s*)?\(" % (call.owner, call.name, call.name), self.text)


def module_of(source):
    """The path of a source's module, by which a library's code names what is in it."""
    inside = os.path.relpath(source.path, os.path.join(ROOT, "crates", source.crate, "src"))[:-len(".rt")].split(os.sep)
    return "::".join([source.crate, *(inside[:-1] if inside[-1] in ("lib", "mod") else inside)])


class Program:
    """What the program reaches, given the libraries that it consists of."""

    def __init__(self, repo, libraries):
        self.repo, self.functions, self.by_end = repo, {}, {}
        for path in libraries.values():
            self.functions.update(functions_of(path))
        for name in self.functions:
            self.by_end.setdefault((name.split("::")[0], *name.removesuffix("+decl").split("::")[-2:]), []).append(name)
        self.calls = {name: it for name, it in self.sources_of_functions()}
        self.own = OwnCode(repo.sources[PROGRAM])
        self.reach = Reach(self.functions, *self.begin())

    def sources_of_functions(self):
        for crate in hls_docs.crates_of(PROGRAM):
            for source in self.repo.sources[crate]:
                for call in source.calls:
                    for name in self.names_of(source, call):
                        yield name, (source, call)

    def names_of(self, source, call):
        """The names that a function of a source may have in its library's code."""
        of = call.owner or module_of(source).split("::")[-1]
        names = self.by_end.get((source.crate, of, call.name), [])
        whole = "::".join([module_of(source), *([call.owner] if call.owner else []), call.name])
        return [it for it in names if it.removesuffix("+decl") == whole] or (names if call.owner else [])

    def begin(self):
        """What the program's own crate names: functions, methods of traits, and the implementations of types."""
        found, asked = [], set()
        for crate in hls_docs.uses_of(PROGRAM):
            for _, source, call in hls_docs.visible(crate, self.repo.sources[crate])[0]:
                for name in self.names_of(source, call) if self.own.calls(call) else ():
                    found.append(name)
                    kind, trait, number = self.functions[name].method_of() or ("", "", 0)
                    asked |= {(trait, number)} if kind == "Trait" else set()
        traits = {name: of for it in self.functions.values() for name, of in it.implementations.items()}
        methods = self.methods_of_named_types()
        # (of an implementation that no library uses the trait isn't known)
        found += [it for it in methods if it not in traits]
        return found, asked, {it: traits[it] for it in methods if it in traits}

    def methods_of_named_types(self):
        """The methods of implementations for types that the program's own crate names."""
        begins = tuple("%s::%s" % (module_of(source), name) for crate in hls_docs.crates_of(PROGRAM) if crate != PROGRAM
                       for source in self.repo.sources[crate] for name in source.types if name in self.own.words)
        methods = {name: it.method_of() for name, it in self.functions.items() if name.startswith(begins)}
        return [name for name, of in methods.items() if of and of[0] == "Impl"]

    def reaches(self, source, call):
        """Whether the program reaches a function; None if its library has none of this name."""
        if source.crate == PROGRAM:
            return call.name in self.own.names
        names = self.names_of(source, call)
        return any(it in self.reach.reached or self.asks(it) for it in names) if names else None

    def asks(self, name):
        """Whether the program calls a trait's method."""
        kind, trait, number = self.functions[name].method_of() or ("", "", 0)
        return kind == "Trait" and (trait, number) in self.reach.asked

    def uses_type(self, source, name):
        """Whether reached code has a type."""
        return "%s::%s" % (module_of(source), name) in self.reach.types

    def is_law(self, source, call):
        """Whether a function is a theorem: it has clauses and no result, changes nothing, and calls only laws."""
        names = self.names_of(source, call)
        functions = [self.functions[it] for it in names]
        if call.gives or not call.clauses or not names or "=" in source.bare[slice(*call.body)]:
            return False
        if any((it.method_of() or [""])[0] == "Trait" for it in functions):
            return False
        below = {it for function in functions for it in function.calls}
        return all(it in self.calls and self.is_law(*self.calls[it]) for it in below)


# The built libraries.

def is_newer(prove, crate, path):
    """Whether a library was built after the last change of its crate."""
    files = prove.files_of(os.path.join(ROOT, "crates", crate))
    return max(map(os.path.getmtime, files)) < os.path.getmtime(path)


def code_of(prove, by, crate, is_gate):
    """The file with a library's code: that of its statements, if these are of the current sources, or else the one in out/; None without one
    of the current sources. In the gate `rt ci` has just made the latter."""
    inside = os.path.join(crate + ".rlib", "toolchain", "mir.json")
    if by and by.is_proved(crate):
        return os.path.join(by.made(crate), inside)
    path = os.path.join(ROOT, "crates", crate, "out", "rlib", inside)
    return path if os.path.isfile(path) and (is_gate or is_newer(prove, crate, path)) else None


def find_libraries(is_gate):
    """The file with the code of each library of the program; None for one that isn't built."""
    prove = load_script(os.path.join(ROOT, "tools", "prove"))
    by = prove.ByStatements(prove.Crates(ROOT)) if shutil.which("rt") else None
    return {it: code_of(prove, by, it, is_gate) for it in hls_docs.crates_of(PROGRAM) if it != PROGRAM}
