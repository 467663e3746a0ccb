#!/usr/bin/env bash
# The script `ilc`, with a stand-in for the toolchain's command: it builds what isn't built or has changed, works from
# any folder and through a link, says how far it is, and runs nothing where building fails.
. "$(dirname "${BASH_SOURCE[0]}")/common.bash"
wants python3=python3
copy=$work/copy
made=$copy/crates/ilc/out/ilc
export NOTES=$work/notes PATH=$work/bin:$PATH
mkdir -p "$work/bin" "$work/elsewhere" "$copy"
cp ilc "$copy"
printf '%s\n' '# two stand beside each other' 'low: std' 'left: low' 'right: low' 'alone: low' 'ilc: left right' \
  >"$copy/crates.txt"
for name in low left right alone ilc; do
  mkdir -p "$copy/crates/$name/"{src,specs}
  echo 1 >"$copy/crates/$name/src/main.rt"
done
ln -s ../copy/ilc "$work/bin/linked-ilc"
find "$copy" -exec touch -d '2 hours ago' {} +

# Notes which crate it is called in, and fails where that has a file `src/fails` or lacks the library `low`. With `lib`
# it makes a library, and with `run` a program that prints its words.
cat >"$work/bin/rt" <<'R'
#!/usr/bin/env bash
name=$(basename "$PWD")
echo "$name" >>"$NOTES"
[ ! -e src/fails ] || { echo "error: the stand-in fails"; exit 1; }
[ "$name" = low ] || [ -e ../low/out/rlib/made ] || exit 1
[ "$1" = lib ] && mkdir -p out/rlib && touch out/rlib/made
[ "$1" = run ] || exit 0
printf '#!/bin/sh\necho "$(basename "$PWD"): $*"\n[ $# -gt 0 ] || exit 64\n' >out/ilc
chmod +x out/ilc
out/ilc
R
chmod +x "$work/bin/rt"

# WHAT STATUS OUTPUT CALLS COMMAND..: the status and the output of a command in the folder elsewhere, and the crates for
# which it calls rt
failed=0
gives() {
  local what=$1 wanted="status $2, '$3', '$4'" output status found
  shift 4
  : >"$NOTES"
  output=$(cd "$work/elsewhere" && "$@" 2>"$work/error")
  status=$?
  found="status $status, '$output', '$(sort "$NOTES" | xargs)'"
  [ "$found" = "$wanted" ] || { echo "script: $what: $found, and not $wanted"; cat "$work/error"; failed=1; }
}
# WHAT TEXT..: the last command's error text has each of these
tells() {
  local what=$1 it
  shift
  for it in "$@"; do
    grep -qF "$it" "$work/error" || { echo "script: $what: the error text lacks: $it"; failed=1; }
  done
}
# FILE: it has changed since the program was built, an hour ago
changes() {
  touch -d '1 hour ago' "$made"
  touch "$1"
}

gives "first use" 0 "elsewhere: body x y" "ilc left low right" ../copy/ilc body x y
tells "first use" "0 of 4 crates are proved, after 0 min 0" "now low" "3 of 4 crates" "proved and built in 0 min 0"
gives "second use" 0 "elsewhere: run x" "" ../copy/ilc run x
gives "use through a link" 0 "elsewhere: run x" "" linked-ilc run x
gives "no words" 64 "elsewhere: " "" "$copy/ilc"
changes "$copy/crates/alone/src/main.rt"
gives "a crate changed that the program doesn't stand on" 0 "elsewhere: run" "" linked-ilc run
changes "$copy/crates/low/specs"
gives "a file of a lower crate came or went" 0 "elsewhere: run" "ilc left low right" linked-ilc run
touch "$copy/crates/low/src/fails"
changes "$copy/crates/ilc/src/main.rt"
gives "building fails" 2 "" "low" ../copy/ilc run x
tells "building fails" "error: the stand-in fails" "ilc: not built: low failed after 0 min"
gives "building fails again" 2 "" "low" ../copy/ilc run x
rm "$copy/crates/low/src/fails"
gives "building goes on" 0 "elsewhere: run x" "ilc left low right" ../copy/ilc run x
gives "use after that" 0 "elsewhere: run x" "" ../copy/ilc run x

[ "$failed" -eq 0 ] && echo "$check: first use, changes, links and failures are as they should be"
exit "$failed"
