#!/usr/bin/env bash
# Compiles a program by mcs, makes it anew by `ilc dis` and `ilc asm`, and runs both by mono: they print the same and end
# with the same status.
. "$(dirname "${BASH_SOURCE[0]}")/common.bash"
wants mcs=mono-mcs mono=mono-runtime
builds
mcs "-out:$work/first.exe" checks/written.cs || exit 1
"$program" dis "$work/first.exe" >"$work/text" && "$program" asm "$work/text" -o "$work/again.exe" || exit 1
ran=0
for words in "" "one and two" "two" "Three"; do
  mono "$work/first.exe" $words >"$work/first" 2>&1
  first=$?
  mono "$work/again.exe" $words >"$work/again" 2>&1
  again=$?
  if [ "$first" -ne "$again" ] || ! diff "$work/first" "$work/again" >"$work/log"; then
    echo "written: with the words '$words' the status is $again, not $first, and the output differs: $(head -n 5 "$work/log")"
    exit 1
  fi
  ran=$((ran + 1))
done
echo "$check: $ran runs agree"
