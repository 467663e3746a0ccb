#!/usr/bin/env bash
# Words that are no instruction of RV64I with M and `ecall`: none may be carried out. Each is the first word of a
# program, and `ilc run` has to stop at it as illegal, with status 132.
. "$(dirname "${BASH_SOURCE[0]}")/common.bash"
wants python3=python3
builds
python3 checks/illegal.py "$program" "$work/program" 3000
