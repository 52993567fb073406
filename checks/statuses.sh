#!/usr/bin/env bash
# Runs the program so that it ends in each way that a command line, a file or a script can bring about, and compares its
# number, what stands on standard output and what is told on standard error. It isn't part of .ci/run.
set -u
top=$(cd "$(dirname "${BASH_SOURCE[0]}")/.." && pwd) || exit 1
"$top/dap" run </dev/null || exit 1
errors=$(mktemp) || exit 1
failed=0

# A number, a line on standard error, the script, and the words. Nothing is printed.
expect() {
  local number=$1 line=$2 script=$3 out status
  shift 3
  out=$(printf '%s' "$script" | "$top/dap" "$@" 2>"$errors")
  status=$?
  if [ "$status" != "$number" ] || [ -n "$out" ] || [ "$(cat "$errors")" != "$line" ]; then
    echo "dap $*: status $status, printed '$out', told '$(cat "$errors")'" >&2
    failed=1
  fi
}

expect 0 '' '' run
expect 1 'dap: usage: word 1' ''
expect 1 'dap: usage: word 2' '' --help x
expect 1 'dap: usage: word 1' '' run $'\xff'
expect 2 'dap: tasks refused: task 0 field file' '' check "$top/examples/count.txt"
expect 3 'dap: script refused: line 1' 'measur v' run
expect 4 'dap: read fault' '' check "$top/examples/none.toml"
expect 11 'dap: limit 4 at line 1000001' "$(printf '#\n%.0s' {1..1000001})" run
expect 13 'dap: not yet: line 1' 'restart leader' run

if "$top/dap" --help >/dev/full 2>"$errors"; then
  echo "dap --help: a failing standard output isn't told" >&2
  failed=1
fi
[ "$(cat "$errors")" = 'dap: write fault' ] || failed=1
rm -f "$errors"
[ "$failed" = 0 ] && echo "statuses: as they should be"
exit "$failed"
