#!/usr/bin/env bash
# Writes the image of the core module into a file, by a program of a few lines over `core_lib` in a folder of its own,
# and has `monodis` read it: its classes with their bases, interfaces, fields and methods are those that
# crates/core_lib/specs/Classes.antt writes down.
. "$(dirname "${BASH_SOURCE[0]}")/common.bash"
wants monodis=mono-utils
mkdir -p "$work/crates/core_file/src"
below=$(python3 - <<'EOF'
rows = [line.partition("#")[0].partition(":") for line in open("crates.txt", encoding="utf-8")]
uses = {head.split()[0]: tail.split() for head, _, tail in rows if head.strip()}
found = []


def visit(name):
    for it in uses.get(name, []):
        visit(it)
    if name in uses and name not in found:
        found.append(name)


visit("core_lib")
print(*found)
EOF
)
for name in $below; do
  mkdir "$work/crates/$name" && cp -a "crates/$name/src" "crates/$name/specs" "$work/crates/$name/" 2>/dev/null
  grep "^$name:" crates.txt >>"$work/crates.txt"
done
echo "core_file: num_core core_lib" >>"$work/crates.txt"
cat >"$work/crates/core_file/src/main.rt" <<'EOF'
//! Writes the image of the core module to the output.

use core_lib::core_image;
use std::io::Write;
use std::process::ExitCode;

fn main(rt: HostRuntime) -> ExitCode {
    let Ok(image) = core_image(rt.alloc()) else {
        return ExitCode::from(1);
    };
    match rt.stdout().write_all(image.as_slice()) {
        Ok(()) => ExitCode::from(0),
        Err(_) => ExitCode::from(2),
    }
}
EOF
(cd "$work/crates/core_file" && rt try >"$work/core.dll" 2>"$work/log") || { cat "$work/log" >&2; exit 1; }
python3 checks/core.py "$work/core.dll" || exit 1
