"""What the checks on assemblies share: the assemblies of a folder, what a program answers, and what monodis tells."""

import glob
import os
import re
import subprocess

# the tables that monodis lists, by its option for each (ECMA-335 II.22)
TABLES = {
    "module": 0x00, "typeref": 0x01, "typedef": 0x02, "fields": 0x04, "method": 0x06, "param": 0x08, "interface": 0x09,
    "memberref": 0x0A, "constant": 0x0B, "customattr": 0x0C, "classlayout": 0x0F, "standalonesig": 0x11,
    "methodimpl": 0x19, "typespec": 0x1B, "fieldrva": 0x1D, "assemblyref": 0x23, "nested": 0x29, "genericpar": 0x2A,
    "methodspec": 0x2B,
}


def assemblies(folder):
    """The assemblies of a folder, each once."""
    return sorted(set(map(os.path.realpath, glob.glob(folder + "/*.dll") + glob.glob(folder + "/*.exe"))))


def run(*words):
    """The status of a program, its output and its error text."""
    done = subprocess.run(words, stdout=subprocess.PIPE, stderr=subprocess.PIPE, check=False)
    return done.returncode, done.stdout.decode("utf-8", "replace"), done.stderr.decode("utf-8", "replace")


def counted_rows(file, option):
    """How many rows the table has by monodis, or nothing where it tells none."""
    status, text, _ = run("monodis", "--" + option, file)
    found = re.search(r"\(1\.\.(\d+)\)", text.split("\n", 1)[0])
    if found:
        return int(found.group(1))
    return None if status else len(re.findall(r"^\d+: ", text, re.M))


def wrong_rows(file, have):
    """Each table of which monodis tells another number of rows than there are."""
    wrong = []
    for option, table in TABLES.items():
        wanted = counted_rows(file, option)
        if wanted is not None and wanted != have[table]:
            wrong.append(f"table {table:02X}: {have[table]} rows, and {wanted} by monodis")
    return wrong
