#!/bin/sh
# All tests, each failing loudly: the lists of crates agree, the programs that must not build, and then rt ci, which
# looks at the layout, proves every crate that it has not passed on this machine (from nothing), tries their must-fail
# edits and runs the programs and the tests. A must-fail edit that cannot be read fails the tests too, which rt ci alone
# lets pass.
set -eu
cd "$(dirname "$0")/.."

if ! command -v rt >/dev/null 2>&1; then
    echo "tests: the command rt of the Rattle kit is not on the path" >&2
    exit 2
fi
want='rattle-kit-13f logic dac8208d650f15bf'
have=$(rt version)
if [ "$have" != "$want" ]; then
    echo "tests: note: the kit here is '$have', the README names '$want'"
fi

bad=0
for dir in crates/*/; do
    name=$(basename "$dir")
    if ! grep -q "^$name:" crates.txt; then
        echo "tests: crates/$name is missing from crates.txt" >&2
        bad=1
    fi
done
for name in $(sed -n 's/^\([a-z_0-9]*\):.*/\1/p' crates.txt); do
    if [ ! -d "crates/$name/src" ]; then
        echo "tests: crates.txt lists $name, and crates/$name has no src" >&2
        bad=1
    fi
done
[ "$bad" -eq 0 ] || exit 1

sh tests/misuse.sh

said=$(mktemp)
trap 'rm -f "$said" "$said.ended"' EXIT
trap 'exit 1' HUP INT TERM
{
    ended=0
    rt ci || ended=$?
    echo "tests: rt ci ended with $ended" >"$said.ended"
} 2>&1 | tee "$said"
ended=$(cat "$said.ended")
rm -f "$said.ended"
if [ "$ended" != 'tests: rt ci ended with 0' ]; then
    echo "$ended" >&2
    exit 1
fi
if ! grep -q '^rt: ok' "$said"; then
    echo "tests: rt ci has no line 'rt: ok'" >&2
    exit 1
fi
if grep -qE '^rt: ok.*, [0-9]+ bad' "$said"; then
    echo "tests: a must-fail edit cannot be read" >&2
    exit 1
fi
