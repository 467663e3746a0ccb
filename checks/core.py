#!/usr/bin/env python3
"""Compares what `monodis` reads in an image of the core module, the first word, with what is written down in
crates/core_lib/specs/Classes.antt: the classes with their attributes and bases, the interfaces, the methods with their
signatures, and the fields with their types."""
import re
import subprocess
import sys

from core_rows import core_of_specs

# the types that have an element of their own (ECMA-335 II.23.1.16)
WORDS = {
    0x01: "void",
    0x02: "bool",
    0x03: "char",
    0x04: "int8",
    0x05: "unsigned int8",
    0x06: "int16",
    0x07: "unsigned int16",
    0x08: "int32",
    0x09: "unsigned int32",
    0x0A: "int64",
    0x0B: "unsigned int64",
    0x0E: "string",
    0x18: "native int",
    0x19: "native unsigned int",
    0x1C: "object",
}


class Names:
    """Names and types as `monodis` writes them."""

    def __init__(self, core):
        self.full = {
            each["name"]: (each["namespace"] + "." if each["namespace"] else "") + each["name"] for each in core.classes
        }

    def type(self, kind):
        if kind[0] == "Element":
            return WORDS[kind[1]]
        if kind[0] in ("Class", "Value"):
            return "class " + self.full[kind[1]]
        if kind[0] == "Vector":
            return self.type(kind[1]) + "[]"
        if kind[0] == "Instance":
            return f"class {self.full[kind[1]]}<{self.type(kind[2])}>"
        return "!0" if kind[0] == "Variable" else "!!0"


def lines_of(file, table):
    """The rows that `monodis` prints of a table, each with the class above it where it groups them so."""
    read = subprocess.run(["monodis", "--" + table, file], capture_output=True, text=True, check=True)
    owner = None
    for line in read.stdout.splitlines():
        if line.startswith("########## "):
            owner = line[11:]
        elif row := re.match(r"(\d+): (.*)", line):
            # (a class's one variable stands there by its name)
            yield owner, re.sub(r"!T\b", "!0", row[2].strip().replace("valuetype ", "class "))


def type_rows(core, names):
    for each in core.classes:
        base = 4 * core.rows[each["base"]] if each["base"] else 0
        yield names.full[each["name"]], each["attributes"], base


def read_types(file):
    pattern = r"(.*) \(flist=\d+, mlist=\d+, flags=(\w+), extends=(\w+)\)"
    for _, line in lines_of(file, "typedef"):
        name, attributes, base = re.fullmatch(pattern, line).groups()
        yield "<Module>" if name == "(null)" else name, int(attributes, 16), int(base, 16)


def method_rows(core, names):
    for owner, method in core.methods:
        types = ", ".join(names.type(it) for it in method["parameters"])
        yield (
            names.full[owner], not method["is_static"], names.type(method["result"]), method["name"], types,
            method["code"][0] == "Runtime",
        )


def read_methods(file):
    pattern = r"(instance )?default (.*?) (\S+) \((.*)\)  \(param: \d+ impl_flags: cil managed (internalcall )?\)"
    for owner, line in lines_of(file, "method"):
        instance, result, name, types, internal = re.fullmatch(pattern, line).groups()
        types = re.sub(r" A_\d+", "", types)
        yield owner, bool(instance), result, name.strip("'"), types, bool(internal)


def field_rows(core, names):
    for owner, field in core.fields:
        yield names.full[owner], f"{names.type(field['kind'])} {field['name']}"


def read_fields(file):
    for owner, line in lines_of(file, "fields"):
        yield owner, line.rpartition(":")[0]


def interface_rows(core, names):
    for each in core.classes:
        for kind in each["interfaces"]:
            yield f"{names.full[each['name']]} implements {names.type(kind).removeprefix('class ')}"


def read_interfaces(file):
    for _, line in lines_of(file, "interface"):
        yield line.replace("implements class ", "implements ")


def main():
    core = core_of_specs()
    names = Names(core)
    counts = []
    for what, wanted, read in (
        ("classes", type_rows(core, names), read_types(sys.argv[1])),
        ("interfaces", interface_rows(core, names), read_interfaces(sys.argv[1])),
        ("methods", method_rows(core, names), read_methods(sys.argv[1])),
        ("fields", field_rows(core, names), read_fields(sys.argv[1])),
    ):
        wanted, read = list(wanted), list(read)
        for place in range(max(len(wanted), len(read))):
            if wanted[place : place + 1] != read[place : place + 1]:
                print(f"core: {what}: row {place + 1}: {read[place : place + 1]}, not {wanted[place : place + 1]}")
                sys.exit(1)
        counts.append(f"{len(read)} {what}")
    print(f"checks/core.sh: {', '.join(counts)} agree")


main()
