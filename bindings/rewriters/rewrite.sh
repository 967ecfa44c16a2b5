#!/bin/sh
# Makes the links of a page absolute: rewrite.sh BASE < PAGE. A link that is no URI stays. `uri` is in PATH.
page=$(mktemp) || exit 1
trap 'rm -f "$page"' EXIT
cat >"$page"
grep -o 'href="[^"]*"' "$page" | sed 's/^href="//; s/"$//' | uri --lines --align escape | uri --lines --align resolve "$1" 2>/dev/null |
  awk '
    FILENAME == "-" { targets[++count] = $0; next }
    {
      while (match($0, /href="[^"]*"/)) {
        target = targets[++used] == "" ? substr($0, RSTART + 6, RLENGTH - 7) : targets[used]
        printf "%shref=\"%s\"", substr($0, 1, RSTART - 1), target
        $0 = substr($0, RSTART + RLENGTH)
      }
      print
    }' - "$page"
