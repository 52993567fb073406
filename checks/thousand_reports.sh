#!/usr/bin/env bash
# Runs the load of 1,000 measurements with the seed 1, and compares what is printed with the sum that is known from outside.
# It isn't part of .ci/run.
set -u
top=$(cd "$(dirname "${BASH_SOURCE[0]}")/.." && pwd) || exit 1

want='collected load 0 reports 1000 rejected 0 sum 29271748
small load 3600 reports 0'
got=$(set -o pipefail; "$top/dap" load 1000 1 | "$top/dap" run) || exit 1
if [ "$got" = "$want" ]; then
  echo "1000 reports: as they should be"
else
  printf '1000 reports: want\n%s\nbut got\n%s\n' "$want" "$got" >&2
  exit 1
fi
