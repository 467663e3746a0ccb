"""Prints docs/DEFINITIONS.md, the definitions of each crate with the sentences over them:
`python3 checks/definitions.py >docs/DEFINITIONS.md` makes it anew."""

import os
import re

HEAD = """# Definitions

The definitions that stand in `specs/` of each crate, in the order of `crates.txt`, each with the sentence that stands
over it in its file; those without a sentence of their own share the one before them, or their names and lines say it.
Laws, which are proved, and what only lets a type hold itself (`specs/formers`) are left out. `checks/definitions.py`
makes this list, and `checks/definitions.sh` sees that it is current. [THEOREM.md](THEOREM.md) says what the main
clauses mean.
"""
DEFINITION = re.compile(r" *(?:abbrev pub|unfoldable pub|pub record|pub data|pub abbrev|pub unfoldable) ([^\s:(){},]+)")


def crates():
    with open("crates.txt", encoding="utf-8") as file:
        return [line.split(":")[0].split()[0] for line in file if ":" in line and not line.startswith("#")]


def modules(root, folder):
    """The files that the lines `mod NAME` of a file name, in their order, each before those that it names itself."""
    if os.path.isfile(root):
        with open(root, encoding="utf-8") as file:
            names = re.findall(r"(?m)^(?:pub )?mod (\S+)", file.read())
        for name in names:
            if name != "formers":
                yield f"{folder}/{name}.antt"
                yield from modules(f"{folder}/{name}.antt", f"{folder}/{name}")


def sentence(comment):
    """The comment as one sentence: without indented lines, which are a table, and without a full stop at its end."""
    return " ".join(line for line in comment if not line.startswith(" ")).strip().removesuffix(".")


def read(file):
    """The sentence at the head of a file, and each definition with its own, which may be empty."""
    head, found, comment = None, [], []
    with open(file, encoding="utf-8") as lines:
        for line in lines:
            line = line.rstrip("\n")
            if line.startswith("--") and not line.startswith("-- ----"):
                comment.append(line[2:].removeprefix(" "))
                continue
            if head is None:
                head = sentence(comment)
            else:
                definition = DEFINITION.match(line)
                if definition:
                    found.append((definition[1], sentence(comment)))
            comment = []
    return head, found


def main():
    print(HEAD)
    for crate in crates():
        specs = f"crates/{crate}/specs"
        files = [(file, *read(file)) for file in modules(f"{specs}/Lib.antt", specs)]
        if any(found for _, _, found in files):
            print(f"## {crate}\n")
        for file, head, found in files:
            if not found:
                continue
            print(f"**`{file.removeprefix('crates/')}`**{': ' + head if head else ''}\n")
            for name, said in found:
                if said:
                    print(f"- `{name}`: {said}")
            rest = [f"`{name}`" for name, said in found if not said]
            if rest:
                print(f"- without a sentence of their own: {', '.join(rest)}")
            print()


main()
