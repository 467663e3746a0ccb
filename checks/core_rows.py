#!/usr/bin/env python3
"""Writes crates/core_lib/src/tables.rt: the rows of the core's tables, computed from the classes that
crates/core_lib/specs/Classes.antt writes down in the words of specs/Words.antt.

    python3 checks/core_rows.py >crates/core_lib/src/tables.rt && (cd crates/core_lib && rt fmt)

Nothing is trusted here: that the rows are those of the classes is a law of the crate, and is proved.
"""
import os
import re
import sys

ROOT = os.path.join(os.path.dirname(os.path.abspath(__file__)), "..", "crates", "core_lib", "specs")

TOKEN = re.compile(r'\s*("[^"]*"|\[\]|\+\+|::|[()λ{};=∷×→:]|0x[0-9A-F_]+|\d+|[^\s()λ{};=∷"×→:]+)')


def tokens(text):
    return TOKEN.findall(text)


# ---- reading definitions


class Reader:
    """An expression of antt: applications, lists, records, numbers and texts."""

    def __init__(self, words):
        self.words, self.at = words, 0

    def peek(self):
        return self.words[self.at] if self.at < len(self.words) else None

    def take(self):
        self.at += 1
        return self.words[self.at - 1]

    def expression(self):
        left = self.application()
        if self.peek() == "∷":
            self.take()
            return ("cons", left, self.expression())
        if self.peek() == "++":
            self.take()
            return ("append", left, self.expression())
        return left

    def application(self):
        head = self.atom()
        while self.peek() not in (None, ")", "∷", "++", ";", "}"):
            head = ("apply", head, self.atom())
        return head

    def atom(self):
        word = self.take()
        if word == "(":
            inner = self.expression()
            self.take()
            return inner
        if word == "record":
            return self.record()
        if word == "[]":
            return ("list",)
        if word[0] == '"':
            return ("text", word[1:-1])
        if word[0].isdigit():
            return ("number", int(word.replace("_", ""), 0))
        return ("name", word)

    def record(self):
        self.take()
        fields = {}
        while self.peek() != "}":
            name = self.take()
            self.take()
            fields[name] = self.expression()
            if self.peek() == ";":
                self.take()
        self.take()
        return ("record", fields)


def definitions(path):
    """The definitions of a file: of each its parameters and its expression."""
    with open(path) as file:
        lines = [line for line in file.read().split("\n") if not line.strip().startswith("--")]
    found = {}
    for block in re.split(r"\n\s*\n", "\n".join(lines)):
        words = tokens(block)
        if not words or words[0] not in ("abbrev", "unfoldable"):
            continue
        name = words[2] if words[1] == "pub" else words[1]
        start = words.index(name, words.index(name) + 1)
        equals = words.index("=", start)
        found[name] = (words[start + 1 : equals], Reader(words[equals + 1 :]).expression())
    return found


CONSTRUCTORS = {
    "Element": 1, "Class": 1, "Value": 1, "Vector": 1, "Instance": 2, "Variable": 0, "MethodVariable": 0,
    "At": 1, "Plain": 1, "Number": 2, "To": 2, "Text": 2, "Method": 4, "Field": 3,
    "Abstract": 0, "Runtime": 1, "Cil": 2,
}


class Evaluator:
    def __init__(self, found):
        self.found = found

    def of(self, term, scope):
        kind = term[0]
        if kind in ("number", "text"):
            return term[1]
        if kind == "list":
            return []
        if kind == "cons":
            return [self.of(term[1], scope)] + self.of(term[2], scope)
        if kind == "append":
            return self.of(term[1], scope) + self.of(term[2], scope)
        if kind == "record":
            return {name: self.of(value, scope) for name, value in term[1].items()}
        if kind == "name":
            return self.named(term[1], [], scope)
        arguments = []
        while term[0] == "apply":
            arguments.insert(0, self.of(term[2], scope))
            term = term[1]
        return self.named(term[1], arguments, scope)

    def named(self, name, arguments, scope):
        if name in scope:
            return scope[name]
        if name in ("true", "false"):
            return name == "true"
        if name == "None":
            return None
        if name in ("codes", "Some"):
            return arguments[0]
        if name in self.found:
            parameters, body = self.found[name]
            return self.of(body, dict(zip(parameters, arguments)))
        if name in CONSTRUCTORS:
            return (name, *arguments)
        return name


# ---- computing rows


def spelled(number):
    if number < 0x80:
        return bytes([number])
    if number < 0x4000:
        return (0x8000 + number).to_bytes(2, "big")
    return (0xC0000000 + number).to_bytes(4, "big")


OPERAND_SIZES = {"Absent": 0, "Unsigned8": 1, "Signed8": 1, "Signed32": 4, "Token": 4, "Target8": 1, "Target32": 4}


class Core:
    def __init__(self, classes, instances, locals_, texts):
        self.classes, self.instances, self.locals, self.texts = classes, instances, locals_, texts
        self.rows = {each["name"]: row for row, each in enumerate(classes, 1)}
        self.methods = [(each["name"], method) for each in classes for method in each["methods"]]
        self.fields = [(each["name"], field) for each in classes for field in each["fields"]]

    def type(self, kind):
        head = kind[0]
        if head == "Element":
            return bytes([kind[1]])
        if head in ("Class", "Value"):
            return bytes([0x12 if head == "Class" else 0x11]) + spelled(4 * self.rows[kind[1]])
        if head == "Vector":
            return b"\x1d" + self.type(kind[1])
        if head == "Instance":
            return b"\x15\x12" + spelled(4 * self.rows[kind[1]]) + b"\x01" + self.type(kind[2])
        return b"\x13\x00" if head == "Variable" else b"\x1e\x00"

    def signature(self, method):
        types = [method["result"]] + method["parameters"]
        first = 0x00 if method["is_static"] else 0x20
        return bytes([first]) + spelled(len(method["parameters"])) + b"".join(map(self.type, types))

    def text_blob(self, text):
        special = any(c in "'-\x7f" or ord(c) in range(1, 9) or ord(c) in range(14, 32) for c in text)
        return spelled(2 * len(text) + 1) + text.encode("utf-16-le") + bytes([special])

    def user(self):
        return b"\0" + b"".join(map(self.text_blob, self.texts))

    def text_token(self, text):
        before = self.texts[: self.texts.index(text)]
        return 0x70000000 + 1 + sum(len(self.text_blob(other)) for other in before)

    def method_token(self, owner, name, parameters):
        for row, (class_name, method) in enumerate(self.methods, 1):
            if class_name == owner and method["name"] == name and method["parameters"] == parameters:
                return 0x06000000 + row
        sys.exit(f"no method {owner}::{name}")

    def field_token(self, owner, name):
        for row, (class_name, field) in enumerate(self.fields, 1):
            if class_name == owner and field["name"] == name:
                return 0x04000000 + row
        sys.exit(f"no field {owner}::{name}")

    @staticmethod
    def size(line):
        if line[0] == "At":
            return 0
        return (1 if line[1]["number"] < 256 else 2) + OPERAND_SIZES[line[1]["form"]]

    def operand(self, line, labels, behind):
        if line[0] == "Number":
            return line[2]
        if line[0] == "To":
            return labels[line[2]] - behind
        if line[0] == "Text":
            return self.text_token(line[2])
        if line[0] == "Method":
            return self.method_token(line[2], line[3], line[4])
        return self.field_token(line[2], line[3])

    def code(self, lines):
        labels, at = {}, 0
        for line in lines:
            if line[0] == "At":
                labels[line[1]] = at
            at += self.size(line)
        code = b""
        for line in lines:
            if line[0] == "At":
                continue
            number = line[1]["number"]
            code += bytes([number]) if number < 256 else bytes([number // 256, number % 256])
            width = OPERAND_SIZES[line[1]["form"]]
            if width:
                operand = self.operand(line, labels, len(code) + width)
                if line[0] == "To" and not -(1 << (8 * width - 1)) <= operand < 1 << (8 * width - 1):
                    sys.exit(f"{line[2]} is too far away")
                code += (operand % (1 << (8 * width))).to_bytes(width, "little")
        return code

    def body(self, locals_, lines):
        code = self.code(lines)
        if not locals_ and len(code) < 64:
            return bytes([4 * len(code) + 2]) + code
        token = 0x11000000 + self.locals.index(locals_) + 1 if locals_ else 0
        header = b"\x13\x30\x08\x00" + len(code).to_bytes(4, "little") + token.to_bytes(4, "little")
        return header + code


# ---- writing them


def literal(value):
    if isinstance(value, str):
        return 'b"' + value + '"'
    return 'b"' + "".join(f"\\x{byte:02X}" for byte in value) + '"'


def array(value):
    return "[" + ", ".join(f"0x{byte:02X}" for byte in value) + "]"


def table(name, kind, rows, what):
    print(f"/// {what}")
    print(f"pub(crate) static {name}: [{kind}; {len(rows)}] = [")
    for row in rows:
        print("    " + row + ",")
    print("];\n")


def class_rows(core):
    fields = methods = 1
    for each in core.classes:
        base = core.rows[each["base"]] if each["base"] else 0
        yield (
            f"ClassRow {{ attributes: 0x{each['attributes']:08X}, name: {literal(each['name'])}, "
            f"namespace: {literal(each['namespace'] or '')}, base: {base}, fields: {fields}, methods: {methods} }}"
        )
        fields += len(each["fields"])
        methods += len(each["methods"])


def method_rows(core, bodies):
    for owner, method in core.methods:
        code = method["code"]
        body = core.body(code[1], code[2]) if code[0] == "Cil" else b""
        text = literal(body)
        if len(body) > 20:
            name = re.sub(r"\W", "", f"{owner}_{method['name']}").upper()
            bodies.append((name, body))
            text = f"&{name}"
        yield (
            f"MethodRow {{ implementation: 0x{0x1000 if code[0] == 'Runtime' else 0:04X}, "
            f"attributes: 0x{method['attributes']:04X}, name: {literal(method['name'])}, "
            f"signature: {literal(core.signature(method))}, body: {text} }}"
        )


def interface_rows(core):
    for row, each in enumerate(core.classes, 1):
        for kind in each["interfaces"]:
            of_class = kind[0] == "Class"
            place = core.rows[kind[1]] if of_class else core.instances.index(kind) + 1
            yield f"InterfaceRow {{ class: {row}, table: 0x{0x02 if of_class else 0x1B:02X}, row: {place} }}"


def core_of_specs():
    found = definitions(os.path.join(ROOT, "Words.antt"))
    found.update(definitions(os.path.join(ROOT, "Classes.antt")))
    values = Evaluator(found)
    return Core(*(values.named(name, [], {}) for name in ("classes", "instances", "local_lists", "texts")))


def main():
    core = core_of_specs()
    bodies = []
    methods = list(method_rows(core, bodies))
    print("//! The rows of the core's tables. `checks/core_rows.py` computes them from the classes in")
    print("//! `specs/Classes.antt`; that they are those of these classes is proved.\n")
    print("use crate::rows::{ClassRow, FieldRow, InterfaceRow, MethodRow};")
    print("use crate::runtime::RuntimeCall;\n")
    print("/// The heap of user strings: the texts that code loads (ECMA-335 II.24.2.4).")
    print(f"pub(crate) static USER: [u8; {len(core.user())}] = {array(core.user())};\n")
    table("CLASSES", "ClassRow", list(class_rows(core)), "The rows of TypeDef (ECMA-335 II.22.37).")
    fields = [
        f"FieldRow {{ attributes: 0x{field['attributes']:04X}, name: {literal(field['name'])}, "
        f"signature: {literal(bytes([6]) + core.type(field['kind']))} }}"
        for _, field in core.fields
    ]
    table("FIELDS", "FieldRow", fields, "The rows of Field (ECMA-335 II.22.15).")
    for name, body in bodies:
        print(f"const {name}: [u8; {len(body)}] = {array(body)};\n")
    table("METHODS", "MethodRow", methods,
          "The rows of MethodDef, with the bodies of methods (ECMA-335 II.22.26, II.25.4).")
    table("INTERFACES", "InterfaceRow", list(interface_rows(core)), "The rows of InterfaceImpl (ECMA-335 II.22.23).")
    locals_ = [literal(b"\x07" + spelled(len(each)) + b"".join(map(core.type, each))) for each in core.locals]
    table("LOCALS", "&[u8]", locals_, "The signatures of the locals of bodies (ECMA-335 II.22.36).")
    table("INSTANCES", "&[u8]", [literal(core.type(kind)) for kind in core.instances],
          "The instances of generic classes (ECMA-335 II.22.39).")
    generic = [str(row) for row, each in enumerate(core.classes, 1) if each["is_generic"]]
    table("VARIABLES", "u32", generic, "The generic classes, each of which has one variable (ECMA-335 II.22.20).")
    calls = [
        f"({row}, RuntimeCall::{method['code'][1]})"
        for row, (_, method) in enumerate(core.methods, 1)
        if method["code"][0] == "Runtime"
    ]
    table("RUNTIME_CALLS", "(u32, RuntimeCall)", calls, "The rows of the methods that are calls of the runtime.")


if __name__ == "__main__":
    main()
