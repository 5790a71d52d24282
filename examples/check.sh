#!/bin/sh
# Runs crates/loadlist/out/loadlist on each example and compares what it prints with the .txt beside it; then
# on 16,385 zero bytes, one more than it reads, which are `too long`.
# `rt run` in crates/loadlist makes the program. Status 1 if anything differs, 2 without the program.
here=$(cd "$(dirname "$0")" && pwd)
loadlist=$here/../crates/loadlist/out/loadlist
if [ ! -x "$loadlist" ]; then
    echo "no crates/loadlist/out/loadlist: run 'rt run' in crates/loadlist first" >&2
    exit 2
fi
status=0
for file in "$here"/*.so; do
    name=$(basename "$file" .so)
    if "$loadlist" <"$file" | cmp -s - "$here/$name.txt"; then
        echo "same: $name"
    else
        echo "DIFFERS: $name"
        "$loadlist" <"$file" | diff "$here/$name.txt" -
        status=1
    fi
done
printed=$(head -c 16385 /dev/zero | "$loadlist")
if [ "$printed" = "too long" ]; then
    echo "same: 16,385 bytes"
else
    echo "DIFFERS: 16,385 bytes"
    echo "$printed"
    status=1
fi
exit $status
