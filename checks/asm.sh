#!/usr/bin/env bash
# Prints each assembly that mono's packages installed by `ilc dis`, makes an image of its text by `ilc asm`, and prints
# that: the text has to be the same. The image has the rows that monodis tells. What is refused is listed by number. The
# largest assembly whose text is read, and the longest such text, take less than three seconds each way.
. "$(dirname "${BASH_SOURCE[0]}")/common.bash"
wants python3=python3 monodis=mono-utils
[ -d /usr/lib/mono/4.5 ] || { echo "skipped: $check: /usr/lib/mono/4.5 isn't there (Debian package mono-devel)"; exit 0; }
builds
python3 checks/asm.py "$program" /usr/lib/mono/4.5 "$work"
