#!/bin/sh
# Builds each program of tests/misuse over the libraries below it, in a folder of its own outside the checkout. The
# first line of a program names what the compiler must say of it; one program is right, so that a broken set-up does
# not pass for a refusal.
set -eu
cd "$(dirname "$0")/.."
libs='definitions diagnostics path'
top=$(mktemp -d)
trap 'rm -rf "$top"' EXIT
trap 'exit 1' HUP INT TERM
mkdir -p "$top/crates/misuse/src"
for lib in $libs; do
    grep "^$lib:" crates.txt >>"$top/crates.txt"
    mkdir "$top/crates/$lib"
    for part in src specs proofs; do
        if [ -d "crates/$lib/$part" ]; then
            cp -R "crates/$lib/$part" "$top/crates/$lib/$part"
        fi
    done
done
echo "misuse: $libs" >>"$top/crates.txt"
bad=0
tried=0
proved=0
for file in tests/misuse/*.txt; do
    name=$(basename "$file" .txt)
    want=$(sed -n '1s,^// expect: ,,p' "$file")
    said=$top/$name.said
    rm -rf "$top/crates/misuse/out"
    cp "$file" "$top/crates/misuse/src/lib.rt"
    status=0
    (cd "$top/crates/misuse" && rt check) >"$said" 2>&1 || status=$?
    errors=$(grep -c 'error\[' "$said" || true)
    case $want in
    logic=proved) right=0 most=0 proved=$((proved + 1)) ;;
    error\[*\]*) right=1 most=1 ;;
    *)
        echo "misuse $name: its first line does not say what to expect"
        bad=1
        continue
        ;;
    esac
    if [ "$status" -eq "$right" ] && [ "$errors" -eq "$most" ] && grep -qF "$want" "$said"; then
        echo "misuse $name: $want, as it must be"
    else
        echo "misuse $name: NOT AS EXPECTED, which is $want (exit $status, $errors errors)"
        head -n 5 "$said"
        bad=1
    fi
    tried=$((tried + 1))
done
if [ "$proved" -eq 0 ] || [ "$tried" -eq "$proved" ]; then
    echo "misuse: a right program and a wrong one are wanted"
    bad=1
fi
exit $bad
