#!/bin/sh
# Runs target/writers (include/writers.c) on each example that has a .writers beside it, and compares
# what it prints with that: the runs of bytes of the loaded file, and who wrote them.
# Status 1 if anything differs, 2 without the program.
here=$(cd "$(dirname "$0")" && pwd)
writers=$here/../target/writers
if [ ! -x "$writers" ]; then
    echo "no target/writers: include/writers.c says how to make it" >&2
    exit 2
fi
status=0
for listed in "$here"/*.writers; do
    name=$(basename "$listed" .writers)
    if "$writers" "$here/$name.so" | cmp -s - "$listed"; then
        echo "same: $name"
    else
        echo "DIFFERS: $name"
        "$writers" "$here/$name.so" | diff "$listed" -
        status=1
    fi
done
exit $status
