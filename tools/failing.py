"""Runs programs whose growths, reads or writes fail: what the tools share that refuse growths or fail reads and writes."""
import argparse
import json
import os
import re
import shutil
import subprocess
import sys
import tempfile
import time
from concurrent.futures import ThreadPoolExecutor
from dataclasses import dataclass

TOOLS = os.path.dirname(os.path.abspath(__file__))
TOP = os.path.dirname(TOOLS)
ASKS = ["valid", "first", "errors", "evaluate"]
# What failing.c tells: how many growths, reads and writes there were.
COUNTS = re.compile(r"\d+ \d+ \d+")
# So many faults of a case are told.
TOLD = 3
# Of so many runs one is made where few are wanted.
QUICK = 15


OF_DRAFT_7 = {
    "$schema": "http://json-schema.org/draft-07/schema#",
    "definitions": {"part": {"type": ["integer", "string"], "multipleOf": 0.5}},
    "properties": {"a": {"items": [{"$ref": "#/definitions/part"}], "additionalItems": {"pattern": "^\\p{L}+$"}}},
    "additionalProperties": False,
}
OF_FILES = {
    "schema.json": {"$schema": "http://json-schema.org/draft-04/schema#", "properties": {"at": {"$ref": "place.json#/place"}}},
    "place.json": {
        "place": {"properties": {"x": {"$ref": "number.json"}, "y": {"uniqueItems": True}}, "required": ["x"], "type": "object"},
    },
    "number.json": {"exclusiveMinimum": True, "minimum": 0},
}
NOT_SUPPORTED = {"items": [1], "not": {"$ref": "#"}, "properties": {"a": {"pattern": "(?=a)"}, "b": {"$dynamicRef": "#a"}}}


def compact(value):
    return json.dumps(value, separators=(",", ":"), ensure_ascii=False)


def cases():
    """Schemas and instances, with their names."""
    rest_is_closed = {"additionalProperties": False}
    refusing = {"^bar": {"type": "integer", "minimum": 5}, "spam$": {"type": "integer", "maximum": 10}}
    two = {"foo": {"type": "string"}, "barbaz": {"type": "integer", "multipleOf": 3}}
    of_patterns = {**rest_is_closed, "properties": two, "patternProperties": refusing}
    lists = {"id": {"type": "integer"}, **{name: {"type": "array"} for name in "abcde"}}
    of_lists = {**rest_is_closed, "properties": lists, "required": ["id"]}
    many = {f"m{i:02}": {} for i in range(65)}
    one = {**rest_is_closed, "properties": {"m64": {}}}
    names = [f"p{i:02}" for i in range(20)]
    of_names = {"properties": {name: {"type": "integer"} for name in names[:16]}}
    matched = {"p": {"minimum": 3}, "(slow)1": {"type": "string"}}
    every_keyword = {
        "allOf": [
            {"required": ["a", "b"]},
            {"properties": {"c": {"type": "string"}}},
            {"patternProperties": {"c": {"minimum": 7}, "^c": False}},
            {"patternProperties": {"^d": {"type": "null"}}},
            {**rest_is_closed, "patternProperties": {"c": {"minimum": 7}}, "properties": {"d": {"type": "string"}}},
            {**rest_is_closed, "properties": {"c": {}}, "required": ["z"]},
            {"additionalProperties": {"type": "null"}},
        ],
        "anyOf": [{"required": ["a"]}, {"properties": {"c": False}}],
        "not": {"required": ["c"]},
        "oneOf": [{"required": ["q"]}, {"if": {"type": "object"}, "then": {"required": ["w"]}, "else": True}],
        "dependencies": {"c": ["e"], "d": {"required": ["e"]}},
        "dependentRequired": {"c": ["d", "e"]},
        "dependentSchemas": {"d": {"required": ["e"]}},
        "propertyDependencies": {"k": {"t": {"required": ["e"]}}},
        "propertyNames": {"not": {"const": "k"}},
        "properties": {"c": {"minimum": 5}, "d": {"type": "integer"}},
        "required": ["a", "b"],
    }
    leaves = {
        "c": {"const": {"a": [1, None]}},
        "e": {"enum": ["a", 2, [3], {"b": 4}]},
        "i": {"maxItems": 0, "minItems": 2},
        "l": {"maxLength": 0, "minLength": 9},
        "n": {"exclusiveMaximum": 7, "exclusiveMinimum": 7, "maximum": 6, "minimum": 8, "multipleOf": 2},
        "o": {"maxProperties": 0, "minProperties": 2},
        "p": {"pattern": "^[a-z]+(b|\\d){2,}$"},
        "t": {"type": ["null", "integer"]},
    }
    lists_of_lists = {
        "$defs": {
            "a": {"contains": {"const": 9}, "items": {"type": "integer"}, "prefixItems": [{"minimum": 3}, True]},
            "b": {"items": {"$ref": "#/$defs/a"}, "minItems": 4},
        },
        "properties": {"x": {"$ref": "#/$defs/b"}, "y": {"$ref": "#/$defs/a"}},
    }
    return [
        ("two patterns that refuse, beside declared names", of_patterns, {"bar": 4, "spam": 11, "foo": 3, "faz": 1}),
        ("a pattern that refuses a declared name", of_patterns, {"barbaz": 3}),
        ("names that nothing allows", of_patterns, {"faz": 1, "haz": 1}),
        ("containers that are held back, one refused", of_lists, {**dict.fromkeys("abcd", []), "e": {}, "id": 1}),
        ("containers that are held back", of_lists, {**dict.fromkeys("abcde", []), "id": 1}),
        ("contexts inside anyOf", {"anyOf": [{"type": "integer"}, {"required": ["a", "b"]}]}, {}),
        ("a name that a leaf refuses", {"propertyNames": {"minLength": 2}}, {"f": 1}),
        ("a name where none is allowed", {"propertyNames": False}, {"foo": 1}),
        ("a name that is no object", {"propertyNames": {"properties": {"a": False}}}, {"a": 1}),
        ("65 patterns beside a declared name", {**one, "patternProperties": many}, {"m64": 1}),
        ("66 patterns, one left unfinished", {**one, "patternProperties": {**many, "(slow)m64": False}}, {"m64": 1}),
        ("annotations", {"properties": {"a": {"properties": {"b": {}}}}, "patternProperties": {"a": {}}}, {"a": {"b": 1}}),
        ("every keyword", every_keyword, {"c": 1, "d": 2, "k": "t"}),
        ("every leaf", {"properties": leaves}, {"c": 1, "e": 1, "i": [1], "l": "text", "n": 7, "o": {"a": 1}, "p": "q", "t": "a"}),
        ("16 declared names", {**of_names, "required": ["p00", "zz"]}, dict.fromkeys(names, "x")),
        (
            "16 declared names, patterns and a rest",
            {**of_names, "additionalProperties": {"type": "integer"}, "patternProperties": matched},
            dict.fromkeys(names, 1),
        ),
        ("a document", lists_of_lists, {"x": [[1, 2, "z"], [9]], "y": [3]}),
        ("a document with a reference to nothing", {"items": {"$ref": "#/$defs/a~1b"}}, [1]),
        ("a malformed keyword", {"properties": 5}, 1),
        ("a malformed pattern", {"patternProperties": {"a/b~(": {}}}, 1),
    ]


@dataclass
class Ran:
    status: int
    lines: list
    # How many growths, reads and writes there were before each write, and in all.
    counts: list
    # What else is on standard error.
    told: list


class Trials:
    """The cases, each given to a program as it is, and with each of its calls failing that a tool is about."""

    # The crate of the program, what it is told behind its name, and the cases.
    crate, words, cases = None, [], cases()

    def given(self, schema, instance):
        """What the program is given of a case."""
        raise NotImplementedError

    def fault_of_full(self, full, given):
        """What is wrong with the run in which nothing fails, if anything is."""
        raise NotImplementedError

    def failures(self, full):
        """What fails in each other run, by the names of failing.c."""
        raise NotImplementedError

    def fault(self, full, ran, failing):
        """What is wrong with such a run, if anything is."""
        raise NotImplementedError

    def about(self, full):
        """What else is told of a case."""
        return ""

    def run(self, **failing):
        said = {"LD_PRELOAD": self.library, **{name: str(number) for name, number in failing.items()}}
        # From a file reads are the same each time.
        with open(self.input, "rb") as given:
            ran = subprocess.run([self.program, *self.words], stdin=given, capture_output=True, env=said, cwd=self.room)
        lines = ran.stdout.decode(errors="replace").splitlines(keepends=True)
        told = ran.stderr.decode(errors="replace").splitlines()
        counts = [tuple(map(int, it.split())) for it in told if COUNTS.fullmatch(it)]
        return Ran(ran.returncode, lines, counts, [it for it in told if not COUNTS.fullmatch(it)])

    def faults(self, full, failures, pool):
        """What is wrong with each run where anything is."""
        found = pool.map(lambda failing: self.fault(full, self.run(**failing), failing), failures)
        return [f"{failing}: {fault}" for failing, fault in zip(failures, found) if fault]

    def try_case(self, name, given, pool, step):
        """How many runs there were, and how many failed."""
        started = time.time()
        with open(self.input, "w", encoding="utf-8") as file:
            file.write(given)
        full = self.run()
        fault = self.fault_of_full(full, given)
        failures = [] if fault else self.failures(full)[::step]
        faults = [f"nothing fails: {fault}"] if fault else self.faults(full, failures, pool)
        count, seconds = 1 + len(failures), time.time() - started
        print(f"{name}: {count} runs in {seconds:.0f} s, {len(faults)} failed{'' if fault else self.about(full)}")
        for fault in faults[:TOLD]:
            print(f"    {fault[:400]}")
        sys.stdout.flush()
        return count, len(faults)

    def run_all(self, program, room, pool, step):
        """How many runs of the program there were over all cases, and how many failed."""
        self.program, self.library, self.input, self.room = program, failing_library(room), f"{room}/input", room
        tried = [self.try_case(name, self.given(*case), pool, step) for name, *case in self.cases]
        return [*map(sum, zip(*tried))]


def main(doc, *trials):
    """Tries all cases of each of the trials as the words of the command say, and gives the exit status."""
    _, usage, told = doc.split("\n\n", 2)
    how = {"usage": usage.strip(), "description": told, "formatter_class": argparse.RawDescriptionHelpFormatter}
    parser = argparse.ArgumentParser(**how)
    parser.add_argument("programs", nargs="*", metavar="PROGRAM")
    parser.add_argument("--quick", action="store_true")
    parser.add_argument("--jobs", type=int, default=1)
    options = parser.parse_args()
    programs = [*map(os.path.abspath, options.programs)] or [f"{TOP}/crates/{it.crate}/out/{it.crate}" for it in trials]
    if len(programs) != len(trials):
        parser.error(f"{len(trials)} programs are to be named, or none")
    for program in programs:
        if not os.access(program, os.X_OK):
            sys.exit(f"{program} is not there: rt ci proves and builds it")
    with tempfile.TemporaryDirectory() as room, ThreadPoolExecutor(options.jobs) as pool:
        step = QUICK if options.quick else 1
        ran = [it.run_all(program, room, pool, step) for it, program in zip(trials, programs)]
    runs, failed = map(sum, zip(*ran))
    print(f"{runs - failed} passed, {failed} failed")
    return 1 if failed else 0


def failing_library(folder):
    """failing.c, compiled by the kit's clang, or where there is no kit by cc."""
    rt = shutil.which("rt")
    compiler = f"{os.path.dirname(os.path.dirname(os.path.realpath(rt)))}/toolchain/bin/clang" if rt else "cc"
    library = f"{folder}/failing.so"
    subprocess.run([compiler, "-shared", "-fPIC", "-O1", "-nostdlib", f"{TOOLS}/failing.c", "-o", library], check=True)
    return library


class Lines(Trials):
    """The program olk_cli, which is given eight lines of each case: all four asks, with either answer for matches that are
    left unfinished."""

    crate = "olk_cli"

    def given(self, schema, instance):
        asked = [{"ask": ask, "schema": schema, "instance": instance} for ask in ASKS]
        return "".join(f"{compact({**it, 'unfinished': answer})}\n" for it in asked for answer in (False, True))

    def fault_of_full(self, full, given):
        if full.status or len(full.lines) != given.count("\n"):
            return f"status {full.status} after {len(full.lines)} lines"
        return None


class Files(Trials):
    """The program olk, which is given the files of each case, and a value a line."""

    crate = "olk"
    words = ["--lines", "--format", "json", "schema.json", "-"]
    cases = [
        ("a document of draft 7, with every verdict", {"schema.json": OF_DRAFT_7}, [{"a": [1, "b", 2.5]}, {"a": [], "c": 1}, "{"]),
        ("a document of draft 4 in three files", OF_FILES, [{"at": {"x": 0, "y": [1, 1]}}, {"at": 5}]),
        ("what is not supported", {"schema.json": NOT_SUPPORTED}, []),
        ("a schema that is malformed", {"schema.json": {"items": {"required": ["a", 5]}}}, []),
        ("a schema that is no JSON", {"schema.json": None}, []),
    ]

    def given(self, files, values):
        for name, schema in files.items():
            with open(f"{self.room}/{name}", "w", encoding="utf-8") as file:
                file.write("no JSON" if schema is None else compact(schema))
        return "".join(f"{it if isinstance(it, str) else compact(it)}\n" for it in values)

    def fault_of_full(self, full, given):
        if full.status not in (1, 2) or len(full.lines) != given.count("\n"):
            return f"status {full.status} after {len(full.lines)} lines"
        return None
