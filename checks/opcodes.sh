#!/usr/bin/env bash
# The table of opcodes in the definitions of il_code against ilasm of mono: a method with each opcode once is assembled,
# and the bytes of each instruction have to be those of its row: the opcode, and an operand of the size and the value
# that its form says. Each variant of `Op` has to have one row, and no opcode of mono's list may be missing.
. "$(dirname "${BASH_SOURCE[0]}")/common.bash"
wants python3=python3 ilasm=mono-devel
python3 checks/opcodes.py text >"$work/opcodes.il" || exit 1
ilasm /dll "/output:$work/opcodes.dll" "$work/opcodes.il" >"$work/log" 2>&1 || { cat "$work/log"; exit 1; }
python3 checks/opcodes.py compare "$work/opcodes.dll"
