"""The table of opcodes as the definitions have it, for the checks that assemble code."""

import re

TABLE = "crates/il_code/specs/Opcodes.antt"
SOURCE = "crates/il_code/src/opcode.rt"
NAMES = "crates/il_text/specs/Mnemonics.antt"
# how many bytes an operand of each form takes; one of targets takes as many as its first four say
SIZES = {"Absent": 0, "Unsigned8": 1, "Unsigned16": 2, "Signed8": 1, "Signed32": 4, "Signed64": 8, "Token": 4,
         "Target8": 1, "Target32": 4, "Targets": None}
# those whose names end in a dot
PREFIXES = ("Constrained", "No", "Readonly", "Tail", "Unaligned", "Volatile")


def mnemonic(variant):
    """The assembler's name of a variant of `Op`: `LdcI4M1` is `ldc.i4.m1`, since a capital letter or a digit begins a
    word, but a digit behind a letter alone."""
    words = re.findall(r"[A-Z][a-z]+|[A-Z][0-9]*|[0-9]+", variant)
    return ".".join(words).lower() + ("." if variant in PREFIXES else "")


def read(file):
    with open(file, encoding="utf-8") as it:
        return it.read()


def variants():
    """The names of the variants of `Op`."""
    return re.findall(r"^    (\w+),$", re.search(r"pub enum Op \{\n(.*?)^\}", read(SOURCE), re.S | re.M)[1], re.M)


def rows():
    """The rows of the table: the opcode's bytes, the variant and the form of the operand."""
    found = re.findall(r"^ *\(0x([0-9A-F]+), Op\.(\w+), (\w+)\) ∷", read(TABLE), re.M)
    return [(bytes.fromhex(code), variant, form) for code, variant, form in found]


def text_names():
    """The instructions that have names in a text: the opcode's bytes, the name and the form of the operand."""
    found = re.findall(r'^ *\(0x([0-9A-F]+), codes "([^"]*)", (\w+)\) ∷', read(NAMES), re.M)
    return [(bytes.fromhex(code), name, form) for code, name, form in found]


def encodings():
    """Of each name in the assembler the opcode's bytes and the size of the operand."""
    return {mnemonic(variant): (code, SIZES[form]) for code, variant, form in rows()}
