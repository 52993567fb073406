#!/usr/bin/env bash
# Runs each example and compares what is printed with the file beside it, which the independent program of checks/reference
# has printed. It isn't part of .ci/run.
set -u
top=$(cd "$(dirname "${BASH_SOURCE[0]}")/.." && pwd) || exit 1
failed=0

# The example's name, its script, and the words of the command.
expect() {
  local name=$1 script=$2
  shift 2
  "$top/dap" "$@" <"$script" | cmp - "$top/examples/$name.printed" || failed=1
}

for script in "$top"/examples/*.txt; do
  name=$(basename "$script" .txt)
  if [ "$name" = uploads ]; then
    expect "$name" "$script" run "$top/examples/tasks.toml"
  else
    expect "$name" "$script" run
  fi
done
expect tasks /dev/null check "$top/examples/tasks.toml"
[ "$failed" = 0 ] && echo "examples: as they should be"
exit "$failed"
