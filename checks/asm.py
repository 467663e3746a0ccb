"""`asm.py PROGRAM FOLDER WORK` prints each assembly of a folder by `PROGRAM dis`, makes an image of the text by `PROGRAM asm`
in the folder WORK, and prints that image: the text has to be the same, but that the bytes of a field may go on, since they
reach up to the next field's or to the end of the section. It compares the number of rows of each table of the image with
what monodis tells, and sees how long the largest assembly and the longest text take."""

import collections
import concurrent.futures
import os
import re
import resource
import sys

from assemblies import assemblies, run, wrong_rows

PROGRAM, FOLDER, WORK = sys.argv[1:]
# the most bytes of a text that is read
MOST_TEXT = 16777216
# the most processor seconds of `dis` and of `asm`
MOST_SECONDS = 3


def is_told_again(line, again):
    """Whether a line of the first text is told by one of the second."""
    if line == again:
        return True
    words, words_again = line.split(" "), again.split(" ")
    return (words[:2] == words_again[:2] == [".row", "1D"] and words[3:] == words_again[3:]
            and words_again[2].startswith(words[2]))


def names(file):
    """The files of the text of an assembly, and of the image that is made of it."""
    name = os.path.join(WORK, os.path.basename(file))
    return name + ".text", name


def compare(file):
    """Why the assembly or its text is refused, if it is, what differs, and how many bytes the text has."""
    text_file, image_file = names(file)
    status, text, error = run(PROGRAM, "dis", file)
    if status:
        return " ".join(error.split()[1:3]), [], 0
    with open(text_file, "w", encoding="ascii") as out:
        out.write(text)
    size = os.path.getsize(text_file)
    status, _, error = run(PROGRAM, "asm", text_file, "-o", image_file)
    os.remove(text_file)
    if status:
        return (error == f"ilc: limit file {size}\n" and size > MOST_TEXT and "limit file") or error.strip(), [], size
    status, again, error = run(PROGRAM, "dis", image_file)
    lines, lines_again = text.split("\n"), again.split("\n")
    wrong = [error.strip()] if status else []
    if len(lines) != len(lines_again):
        wrong.append(f"{len(lines_again)} lines, not {len(lines)}")
    wrong += [f"{line[:80]} is {other[:80]} then" for line, other in zip(lines, lines_again) if not is_told_again(line, other)]
    rows = [line.split(" ", 2)[1] for line in lines if line.startswith(".row ")]
    wrong += wrong_rows(image_file, collections.Counter(int(table, 16) for table in rows))
    os.remove(image_file)
    return None, wrong, size


def seconds(*words):
    """The processor seconds that a program takes, and its output."""
    before = resource.getrusage(resource.RUSAGE_CHILDREN)
    _, text, _ = run(*words)
    after = resource.getrusage(resource.RUSAGE_CHILDREN)
    return after.ru_utime + after.ru_stime - before.ru_utime - before.ru_stime, text


def timed(file):
    """Whether the text of an assembly is printed, and its image made of it, in time."""
    text_file, image_file = names(file)
    printing, text = seconds(PROGRAM, "dis", file)
    with open(text_file, "w", encoding="ascii") as out:
        out.write(text)
    making, _ = seconds(PROGRAM, "asm", text_file, "-o", image_file)
    print(f"asm: {os.path.basename(file)} ({os.path.getsize(file)} bytes, {len(text)} of text): "
          f"dis {printing:.2f} and asm {making:.2f} processor seconds")
    return max(printing, making) < MOST_SECONDS


def main():
    files = assemblies(FOLDER)
    refused = collections.Counter()
    agree = {}
    failed = 0
    with concurrent.futures.ThreadPoolExecutor(os.cpu_count()) as pool:
        for file, (refusal, wrong, size) in zip(files, pool.map(compare, files)):
            if refusal:
                refused[refusal] += 1
                if not re.fullmatch(r"[123459] \w+|limit file", refusal):
                    print(f"asm: {file}: {refusal}")
                    failed = 1
            elif wrong:
                print(f"asm: {file}: {'; '.join(wrong[:5])}")
                failed = 1
            else:
                agree[file] = size
    for name, count in sorted(refused.items()):
        print(f"asm: {count} refused as {name}")
    print(f"checks/asm.sh: {len(agree)} of {len(files)} assemblies agree")
    for file in {max(agree, key=os.path.getsize), max(agree, key=agree.get)} if agree else ():
        if not timed(file):
            print(f"asm: more than {MOST_SECONDS} seconds")
            failed = 1
    return failed


sys.exit(main())
