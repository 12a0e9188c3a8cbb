#!/usr/bin/env bash
# Makes the one header ../vataudit/recorder.h of the parts. `join.sh --check` makes none, and ends with 1 where the
# header isn't what the parts make.
#
# A part stands in the place of the first line that includes it; what only a part needs is left out.
set -euo pipefail
cd "$(dirname "$0")"

joined() {
  awk '
    function heading(text) {
      sub(/^\/\/ /, "", text)
      sub(/\.$/, "", text)
      print "// =========================================================================== " text
      print ""
    }
    function part(name,    line, title) {
      if (name in seen) return
      seen[name] = 1
      if (name != "recorder.h") getline title < name
      while ((getline line < name) > 0) {
        if (line ~ /^#include "/) { split(line, words, "\""); part(words[2]); continue }
        if (name == "recorder.h") { print line; continue }
        if (line == "#pragma once") continue
        if (title != "" && line != "") { heading(title); title = "" }
        print line
      }
      close(name)
    }
    BEGIN { part("recorder.h") }' | cat -s
}

if [ "${1:-}" = --check ]; then
  joined | diff - ../vataudit/recorder.h > /dev/null || { echo "vataudit/recorder.h isn't what parts/join.sh makes"; exit 1; }
else
  joined > ../vataudit/recorder.h
fi
