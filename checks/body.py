"""Bodies to build: writes to a folder `table`, a line for each body with its bytes and the low byte of its result, and
`bodies.il`, a program of the same bodies for another runtime, which prints the low byte of the result of each."""

import random
import sys

from opcode_table import encodings

ENCODINGS = encodings()
EXTREMES = (-2**31, -2**31 + 1, -65536, -1, 0, 1, 65535, 65536, 2**31 - 1)
OPERATIONS = ("add", "sub", "mul")
chance = random.Random(20)
# each body: its bytes, the low byte of its result, and its text, a list of instructions and of labels with a colon
bodies = []


def is_label(line):
    return line.endswith(":")


def size_of(line):
    code, operand = ENCODINGS[line.split()[0]]
    return len(code) + operand


def size_of_all(text):
    return sum(size_of(line) for line in text if not is_label(line))


def assembled(text):
    """The bytes of a body: a tiny header, which has the size in its upper six bits, and the code."""
    places, code = {line[:-1]: size_of_all(text[:at]) for at, line in enumerate(text) if is_label(line)}, b""
    for line in text:
        if not is_label(line):
            name, *operand = line.split()
            opcode, size = ENCODINGS[name]
            number = 0
            if operand:
                number = places[operand[0]] - len(code) - size_of(line) if name.startswith("br") else int(operand[0])
            code += opcode + number.to_bytes(size, "little", signed=True)
    assert len(code) < 64, text
    return bytes([len(code) * 4 + 2]) + code


def result(text):
    """The result of a body, by a stack of at most eight 32-bit numbers."""
    at, stack = 0, []
    for _ in range(100_000):
        line, at = text[at], at + 1
        if is_label(line) or line == "nop":
            continue
        name, *operand = line.split()
        if name.startswith("ldc.i4"):
            stack.append(int(operand[0]) if operand else int(name[7:].replace("m", "-")))
        elif name == "dup":
            stack.append(stack[-1])
        elif name == "pop":
            stack.pop()
        elif name in OPERATIONS:
            second, first = stack.pop(), stack.pop()
            number = {"add": first + second, "sub": first - second, "mul": first * second}[name]
            stack.append((number + 2**31) % 2**32 - 2**31)
        elif name == "ret":
            assert len(stack) == 1
            return stack[0]
        elif not name.startswith("brtrue") or stack.pop() != 0:
            at = text.index(operand[0] + ":")
        assert len(stack) <= 8
    raise AssertionError(text)


def body(*lines):
    """Adds a body, in which a number stands for its load, and which ends with `ret`."""
    text = [f"ldc.i4 {line}" if isinstance(line, int) else line for line in (*lines, "ret")]
    bodies.append((assembled(text).hex(), result(text) % 256, text))


def number():
    return chance.choice((chance.choice(EXTREMES), chance.randrange(-2**31, 2**31)))


def form():
    """What stands behind the name of a branch: nothing for its long form, or .s for its short one."""
    return chance.choice(("", ".s"))


def constants():
    for n in range(-1, 9):
        body(f"ldc.i4.{n}".replace("-", "m"))
    for n in (-128, -1, 0, 42, 127):
        body(f"ldc.i4.s {n}")
    for n in (-2**31, -2**31 + 255, -4096, -2049, -2048, -1, 0, 255, 256, 2047, 2048, 2049, 4095, 4096, 0x7FFFF7FF,
              0x7FFFF800, 2**31 - 256, 2**31 - 1):
        body(n)


def computations():
    for first in EXTREMES:
        body("nop", first, "dup", "mul", "nop")
        body(first, 77, "pop")
        for second in EXTREMES:
            for operation in OPERATIONS:
                body(first, second, operation)


def full_stacks():
    """Eight values on the stack, as many as a body with a tiny header may have, loaded or copied."""
    for _ in range(20):
        body(*(number() for _ in range(8)), *(chance.choice(OPERATIONS) for _ in range(7)))
        ones = [number()] + [line for _ in range(3) for line in (number(), "dup")] + ["dup"]
        rest = [chance.choice(OPERATIONS + ("pop",)) for _ in range(5)]
        body(*ones, "pop", chance.choice(OPERATIONS), "dup", "pop", *rest)


def branches():
    """In both forms: taken and not by extreme numbers, round a loop, and over code that nothing comes to."""
    for first in EXTREMES:
        for it in ("", ".s"):
            body(first, f"brtrue{it} taken", "ldc.i4.s 20", "ret", "taken:", "ldc.i4.s 10")
            body("ldc.i4.3", first, f"brtrue{it} taken", "ldc.i4.4", "add", f"br{it} join", "taken:", "ldc.i4.5",
                 "mul", "join:")
    for n, step in ((1, 1), (5, 1), (600, 3), (-7, -1), (2**31 - 1, 2**31 - 1)):
        body("ldc.i4.7", n, "loop:", step, "sub", "dup", f"brtrue{form()} loop", "add")
    for n in EXTREMES:
        body(n, "loop:", "dup", "add", "dup", f"brtrue{form()} loop", "ldc.i4.8", "add")
    body("br.s over", "add", "pop", "over:", "ldc.i4.6", "br last", "ldc.i4.7", "last:")


class Expression:
    """An expression with conditions inside it."""

    def __init__(self, size):
        self.text, self.labels = [], 0
        self.add(size, 0)

    def label(self):
        self.labels += 1
        return f"L{self.labels}"

    def add(self, size, depth):
        kind = chance.choice(("constant", "binary", "condition")) if size > 0 and depth < 6 else "constant"
        if kind == "constant":
            some = f"ldc.i4.{chance.randrange(9)}", f"ldc.i4.s {chance.randrange(-128, 128)}", "ldc.i4.0"
            self.text.append(chance.choice(some))
        elif kind == "binary":
            self.add(size - 1, depth)
            self.add(size - 1, depth + 1)
            self.text.append(chance.choice(OPERATIONS))
        else:
            taken, join = self.label(), self.label()
            self.add(size - 1, depth)
            self.text.append(f"brtrue{form()} {taken}")
            self.add(size - 2, depth)
            self.text += [f"br{form()} {join}", taken + ":"]
            self.add(size - 2, depth)
            self.text.append(join + ":")


def expressions(count):
    while count:
        text = Expression(4).text
        if any(line.startswith("br") for line in text) and size_of_all(text) < 63:
            body(*text)
            count -= 1


def program():
    """The bodies as methods of one program."""
    yield (".assembly extern mscorlib {} .assembly bodies {} .module bodies.exe "
           ".class public Bodies extends [mscorlib]System.Object {")
    for index, (_, _, text) in enumerate(bodies):
        yield f".method public static int32 M{index}() cil managed {{ .maxstack 8"
        yield from (*text, "}")
    yield ".method public static void Main() cil managed { .entrypoint .maxstack 8"
    for index in range(len(bodies)):
        yield f"call int32 Bodies::M{index}() ldc.i4 255 and call void [mscorlib]System.Console::WriteLine(int32)"
    yield "ret } }"


constants()
computations()
full_stacks()
branches()
expressions(100)
folder = sys.argv[1]
with open(f"{folder}/table", "w", encoding="utf-8") as file:
    file.writelines(f"{code} {status}\n" for code, status, _ in bodies)
with open(f"{folder}/bodies.il", "w", encoding="utf-8") as file:
    file.writelines(f"{line}\n" for line in program())
