#!/usr/bin/env bash
# docs/DEFINITIONS.md is what checks/definitions.py makes of `specs/`.
. "$(dirname "${BASH_SOURCE[0]}")/common.bash"
wants python3=python3
python3 checks/definitions.py >"$work/definitions" || exit 1
diff docs/DEFINITIONS.md "$work/definitions" >"$work/changes" || {
  head -n 20 "$work/changes"
  echo "definitions: the list isn't current: python3 checks/definitions.py >docs/DEFINITIONS.md makes it anew"
  exit 1
}
count=$(awk '/^- `/ { n++ } /^- without/ { n += gsub(/`/, "") / 2 } END { print n }' docs/DEFINITIONS.md)
echo "$check: the list is current, with $count definitions"
