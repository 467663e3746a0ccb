"""The table of opcodes against ilasm: `opcodes.py text` prints a program with each opcode once, and `opcodes.py compare
FILE` compares the assembly that ilasm makes of it with the table."""

import os
import re
import struct
import sys
from xml.etree import ElementTree

from opcode_table import SIZES, mnemonic, rows, text_names, variants

ROWS = rows()
# the operand of an instruction as the standard describes it (ECMA-335 III.3 and III.4): a number, the tables of its
# token (II.22, III.1.9), or targets; an instruction that isn't here has none
OPERANDS = {}


def operands(names, text, meaning):
    OPERANDS.update(dict.fromkeys(names.split(), (text, meaning)))


def number(names, text, encoded):
    operands(names, text, int.from_bytes(encoded, "little", signed=text.startswith("-")))


number("ldarg.s ldarga.s starg.s ldloc.s ldloca.s stloc.s", "200", struct.pack("<B", 200))
number("ldarg ldarga starg ldloc ldloca stloc", "51417", struct.pack("<H", 51417))
number("ldc.i4.s", "-100", struct.pack("<b", -100))
number("ldc.i4", "-1900000000", struct.pack("<i", -1900000000))
number("ldc.i8", "-8100000000000000000", struct.pack("<q", -8100000000000000000))
number("ldc.r4", "-1.5", struct.pack("<f", -1.5))
number("ldc.r8", "-2.25", struct.pack("<d", -2.25))
number("unaligned.", "4", struct.pack("<B", 4))
METHOD, FIELD, TYPE, STRING, SIGNATURE = (0x06, 0x0A, 0x2B), (0x04, 0x0A), (0x01, 0x02, 0x1B), (0x70,), (0x11,)
operands("call callvirt jmp ldftn ldvirtftn", "void Sample::other()", METHOD)
operands("newobj", "instance void [mscorlib]System.Object::.ctor()", METHOD)
operands("calli", "void ()", SIGNATURE)
operands("ldfld ldflda stfld ldsfld ldsflda stsfld", "int32 Sample::kept", FIELD)
operands("ldstr", '"text"', STRING)
operands("box castclass constrained. cpobj initobj isinst ldelem ldelema ldobj ldtoken mkrefany newarr refanyval "
         "sizeof stelem stobj unbox unbox.any", "Sample", TYPE)
BRANCHES = "br brfalse brtrue beq bge bgt ble blt bne.un bge.un bgt.un ble.un blt.un leave".split()

# what ilasm can't assemble, as the standard lists it: the opcode and the size of the operand (III.2.2)
BY_HAND = {"no.": (b"\xfe\x19", 1)}
COMPARED = [(code, mnemonic(name), form) for code, name, form in ROWS if mnemonic(name) not in BY_HAND]


def marker(place):
    """The number whose load stands before the instruction at a place, and behind the last; it stands nowhere else."""
    return 0x5AC30000 + place


def targets(place, name):
    """Where a branch leads: back to the label of its own marker, or forward to that behind the next instruction, in
    turn."""
    if name == "switch":
        return [place + 2, place, place + 1]
    return [place + 2 * (place % 2)]


def operand(place, name):
    """The text of an operand and what it means."""
    if name == "switch" or name.removesuffix(".s") in BRANCHES:
        labels = ", ".join(f"at_{target}" for target in targets(place, name))
        return (f"({labels})" if name == "switch" else labels), "targets"
    return OPERANDS.get(name, ("", None))


def assembler_text():
    print(".assembly extern mscorlib {}\n.assembly opcodes {}\n.module opcodes.dll\n.class public Sample extends "
          "[mscorlib]System.Object {\n.field public static int32 kept\n.method public static void other() cil managed "
          "{ ret }\n.method public static void each() cil managed {\n.maxstack 8")
    for place, (_, name, _) in enumerate(COMPARED):
        print(f"at_{place}: ldc.i4 {marker(place)}\n  {name} {operand(place, name)[0]}")
    for place in (len(COMPARED), len(COMPARED) + 1):
        print(f"at_{place}: ldc.i4 {marker(place)}")
    print("ret }\n}")


def position(image, place):
    encoded = b"\x20" + marker(place).to_bytes(4, "little")
    if image.count(encoded) != 1:
        sys.exit(f"opcodes: marker {place} stands {image.count(encoded)} times in the assembly")
    return image.index(encoded)


def is_operand(form, meaning, encoded, behind, wanted):
    """Whether the bytes are, by the form of the table, the number, token or targets of the text."""
    if form == "Targets":
        count = int.from_bytes(encoded[:4], "little")
        if len(encoded) != 4 + 4 * count:
            return False
        distances = struct.unpack(f"<{count}i", encoded[4:])
        return meaning == "targets" and [behind + distance for distance in distances] == wanted
    if len(encoded) != SIZES[form]:
        return False
    value = int.from_bytes(encoded, "little", signed=form.startswith(("Signed", "Target")))
    if form in ("Target8", "Target32"):
        return meaning == "targets" and [behind + value] == wanted
    if isinstance(meaning, tuple):
        return form in ("Token", "Signed32") and encoded[3] in meaning
    if form == "Absent":
        return meaning is None
    return form != "Token" and value == meaning


LIST = "/usr/share/mono-2.0/mono/cil/cil-opcodes.xml"


def listed():
    """The names that mono's list of opcodes has, but for those of mono alone and for unused numbers."""
    if not os.path.exists(LIST):
        print(f"skipped: checks/opcodes.sh by mono's list: {LIST} isn't there (Debian package mono-runtime-common)")
        return []
    return [row.get("name") for row in ElementTree.parse(LIST).iter("opcode")
            if row.get("o1") in ("0xFF", "0xFE") and not re.match("unused|prefix", row.get("name"))]


def wrong_rows():
    """What is wrong with the rows by themselves: each variant has one, and each opcode is that of one."""
    names, codes, every = [name for _, name, _ in ROWS], [code for code, _, _ in ROWS], variants()
    yield from (f"{name} has {names.count(name)} rows" for name in every if names.count(name) != 1)
    yield from (f"{name} is no opcode" for name in names if name not in every)
    yield from (f"{name} stands twice" for name in set(every) if every.count(name) != 1)
    yield from (f"0x{code.hex()} stands twice" for code in set(codes) if codes.count(code) != 1)
    yield from (f"the table lacks {name}" for name in listed() if name not in map(mnemonic, names))
    table = [(code, mnemonic(name), form) for code, name, form in ROWS]
    yield from (f"texts have {name} as 0x{code.hex()} {form}" for code, name, form in text_names()
                if (code, name, form) not in table)
    for code, name, form in ROWS:
        if mnemonic(name) in BY_HAND and (code, SIZES[form]) != BY_HAND[mnemonic(name)]:
            yield f"{mnemonic(name)}: the table has 0x{code.hex()} {form}"


def compare(file):
    bad, numbers = [*wrong_rows()], []
    with open(file, "rb") as assembly:
        image = assembly.read()
    at = [position(image, place) for place in range(len(COMPARED) + 2)]
    for place, (code, name, form) in enumerate(COMPARED):
        written = image[at[place] + 5:at[place + 1]]
        encoded = written[len(code):]
        meaning = operand(place, name)[1]
        wanted = [at[target] for target in targets(place, name)]
        if written[:len(code)] != code or not is_operand(form, meaning, encoded, at[place + 1], wanted):
            bad.append(f"{name}: ilasm writes {written.hex(' ')}, the table has 0x{code.hex()} {form}")
        elif isinstance(meaning, tuple) and form != "Token":
            numbers.append(name)
    for line in bad:
        print(f"opcodes: {line}")
    if bad:
        sys.exit(1)
    print(f"opcodes: not compared with ilasm but with a literal: {' '.join(BY_HAND)}")
    print(f"opcodes: tokens that the table reads as numbers of the same size: {' '.join(numbers)}")
    print(f"checks/opcodes.sh: {len(COMPARED)} opcodes are those of ilasm, {len(BY_HAND)} that of the literal; "
          f"{len(text_names())} have these names in texts")


assembler_text() if sys.argv[1] == "text" else compare(sys.argv[2])
