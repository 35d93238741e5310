#!/usr/bin/env bash
# Misuses that must not compile. Each file of checks/misuse but `control` changes one line of the control program: the control must compile
# and run, and the changed program must be refused with the error that the file names. All is done on a copy outside the tree; nothing is
# proved there.
set -euo pipefail
top=$(cd "$(dirname "$0")/.." && pwd)
copy=$(mktemp -d)
trap 'rm -rf "$copy"' EXIT
mkdir "$copy/crates"
(cd "$top" && tar c --exclude=out crates crates.txt) | tar x -C "$copy"
echo "misuse: parts session table" >> "$copy/crates.txt"
mkdir -p "$copy/crates/misuse/src"
cd "$copy/crates/misuse"

compiles() { rt try < /dev/null > "$copy/misuse.log" 2>&1; }

cp "$top/checks/misuse/control.txt" src/main.rt
if ! compiles; then
    echo "misuse: the control program does not compile:"
    cat "$copy/misuse.log"
    exit 1
fi
count=0
for file in "$top"/checks/misuse/*.txt; do
    name=$(basename "$file" .txt)
    [ "$name" = control ] && continue
    old=$(sed -n 's/^old: //p' "$file")
    new=$(sed -n 's/^new: //p' "$file")
    says=$(sed -n 's/^says: //p' "$file")
    OLD=$old NEW=$new python3 - "$top/checks/misuse/control.txt" > src/main.rt <<'PY'
import os, sys
text = open(sys.argv[1]).read()
old = os.environ["OLD"]
if text.count(old) != 1:
    sys.exit("the line stands %d times in the control program" % text.count(old))
sys.stdout.write(text.replace(old, os.environ["NEW"]))
PY
    if compiles; then
        echo "misuse: $name compiles, and must not"
        exit 1
    fi
    if ! grep -qF "$says" "$copy/misuse.log"; then
        echo "misuse: $name is refused, but not with $says:"
        cat "$copy/misuse.log"
        exit 1
    fi
    count=$((count + 1))
done
[ "$count" -gt 0 ] || { echo "misuse: no misuse was tried"; exit 1; }
echo "misuses refused by the compiler: $count"
