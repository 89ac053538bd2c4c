"""Unit tests of what is reached from a function, by the code in libraries.

    bash tests/lint_tools
"""
import json
import os
import sys
import tempfile
import unittest

sys.path.insert(0, os.path.join(os.path.dirname(os.path.abspath(__file__)), "..", "lib"))
from reached_functions import Reach, functions_of  # noqa: E402


def call(name):
    return {"Call": [{"Fn": [name, {"types": [], "dicts": []}]}]}


def method(bound, number):
    """A call of a trait's method on a type that the caller chooses."""
    return {"Call": [{"Method": [{"Given": bound}, number, {"types": [], "dicts": []}]}]}


def code(*body, bounds=(), uses=()):
    """The code of a function, with the traits of the types that its caller chooses, and the implementations that it uses."""
    tables = [{"name": name, "bounds": [{"of": "core::marker::Copy"}], "of": {"of": trait, "types": []}, "methods": methods} for name, trait, methods in uses]
    return {"lifetimes": 0, "outlives": [], "generics": {"bounds": [{"of": it} for it in bounds], "method_of": None, "impls": tables}, "body": body}


def reached(library, *begins):
    """The functions that are reached in a library."""
    with tempfile.NamedTemporaryFile("w", suffix=".json") as file:
        json.dump([list(it) for it in library.items()], file, separators=(",", ":"))
        file.flush()
        return Reach(functions_of(file.name), list(begins), set(), {}).reached


class Reached(unittest.TestCase):
    def test_calls_of_calls_are_reached_and_others_not(self):
        library = {"hls_a::main": code(call("hls_a::first")), "hls_a::first": code(call("hls_a::second")), "hls_a::second": code(), "hls_a::other": code()}
        self.assertEqual(reached(library, "hls_a::main"), {"hls_a::main", "hls_a::first", "hls_a::second"})

    def test_functions_that_call_each_other_end(self):
        library = {"hls_a::even": code(call("hls_a::odd")), "hls_a::odd": code(call("hls_a::even"))}
        self.assertEqual(reached(library, "hls_a::even"), {"hls_a::even", "hls_a::odd"})

    def test_a_method_is_reached_in_each_implementation_in_use(self):
        uses = [("hls_a::FileSink", "hls_a::Sink", ["hls_a::FileSink::put", "hls_a::FileSink::end"])]
        library = {"hls_a::main": code(call("hls_a::fill"), uses=uses), "hls_a::fill": code(method(1, 0), bounds=("core::marker::Copy", "hls_a::Sink")),
                   "hls_a::FileSink::put": code(), "hls_a::FileSink::end": code(), "hls_a::NullSink::put": code()}
        self.assertEqual(reached(library, "hls_a::main"), {"hls_a::main", "hls_a::fill", "hls_a::FileSink::put"})

    def test_an_implementation_may_be_used_after_the_call(self):
        uses = [("hls_a::FileSink", "hls_a::Sink", ["hls_a::FileSink::put"])]
        library = {"hls_a::main": code(call("hls_a::last"), call("hls_a::fill")), "hls_a::fill": code(method(0, 0), bounds=("hls_a::Sink",)),
                   "hls_a::last": code(uses=uses), "hls_a::FileSink::put": code(call("hls_a::write")), "hls_a::write": code()}
        self.assertEqual(reached(library, "hls_a::main"), set(library))

    def test_the_toolchain_calls_each_method_of_its_traits(self):
        library = {"hls_a::main": code(uses=[("hls_a::NameDisplay", "core::fmt::Display", ["hls_a::NameDisplay::fmt"])]), "hls_a::NameDisplay::fmt": code()}
        self.assertEqual(reached(library, "hls_a::main"), set(library))


if __name__ == "__main__":
    unittest.main()
