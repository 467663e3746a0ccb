"""`dis.py PROGRAM FOLDER` prints each assembly of a folder by `PROGRAM dis` and compares the number of rows of each table,
and how often each instruction of the profile stands in it, with what monodis tells."""

import collections
import concurrent.futures
import os
import re
import sys

from assemblies import assemblies, run, wrong_rows
from opcode_table import read

PROGRAM, FOLDER = sys.argv[1:]
# what monodis writes otherwise than ECMA-335 III does
SPELLED = {"ldelem.any": "ldelem", "stelem.any": "stelem", "brzero": "brfalse", "brinst": "brtrue"}
# the instructions of the profile; any other is printed as its bytes
NAMES = re.findall(r'^ +\(0x[0-9A-F]+, codes "([^"]+)"', read("crates/il_text/specs/Mnemonics.antt"), re.M)


def instructions(file):
    """How often monodis writes each instruction, or nothing where it leaves methods out: it wants to load what they name."""
    status, text, _ = run("monodis", file)
    if status or "<NULL METHOD SIGNATURE>" in text:
        return None
    found = re.findall(r"^\s*IL_[0-9a-f]{4,}:\s+([a-z][a-z0-9.]*)", text, re.M)
    return collections.Counter(SPELLED.get(name, name) for name in found)


def compare(file):
    """The refusal of a file, if there is one, and what differs."""
    status, text, error = run(PROGRAM, "dis", file)
    if status:
        return error.split()[1:3], []
    lines = [line.split(" ", 2) for line in text.split("\n")]
    wrong = wrong_rows(file, collections.Counter(int(line[1], 16) for line in lines if line[0] == ".row"))
    wanted = instructions(file)
    has = collections.Counter(line[0] for line in lines if not line[0].startswith("."))
    if wanted is not None and not any(line[0] == ".code" for line in lines):
        for name in NAMES:
            if has[name] != wanted[name]:
                wrong.append(f"{name}: {has[name]}, and {wanted[name]} by monodis")
    return None, wrong


def main():
    files = assemblies(FOLDER)
    refused = collections.Counter()
    agree = 0
    failed = 0
    with concurrent.futures.ThreadPoolExecutor(os.cpu_count()) as pool:
        for file, (refusal, wrong) in zip(files, pool.map(compare, files)):
            if refusal:
                refused[" ".join(refusal)] += 1
                if not re.fullmatch(r"[123459] \w+", " ".join(refusal)):
                    print(f"dis: {file}: {' '.join(refusal)}")
                    failed = 1
            elif wrong:
                print(f"dis: {file}: {'; '.join(wrong[:5])}")
                failed = 1
            else:
                agree += 1
    for name, count in sorted(refused.items()):
        print(f"dis: {count} refused as {name}")
    print(f"checks/dis.sh: {agree} of {len(files)} assemblies agree")
    return failed


sys.exit(main())
