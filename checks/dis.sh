#!/usr/bin/env bash
# Prints each assembly that mono's packages installed by `ilc dis`, and compares the number of rows of each table and
# the number of each instruction with those that monodis tells. A refusal has to be one that the format's rules give; they
# are listed by number.
. "$(dirname "${BASH_SOURCE[0]}")/common.bash"
wants python3=python3 monodis=mono-utils
[ -d /usr/lib/mono/4.5 ] || { echo "skipped: $check: /usr/lib/mono/4.5 isn't there (Debian package mono-devel)"; exit 0; }
builds
python3 checks/dis.py "$program" /usr/lib/mono/4.5
