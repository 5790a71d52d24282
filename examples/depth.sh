#!/bin/sh
# Runs target/depth (include/depth.c) on each line of depths.txt, a file and a limit, and compares what it prints
# with the rest of the line. Status 1 if anything differs, 2 without the program.
here=$(cd "$(dirname "$0")" && pwd)
depth=$here/../target/depth
if [ ! -x "$depth" ]; then
    echo "no target/depth: include/depth.c says how to make it" >&2
    exit 2
fi
status=0
while read -r name limit told; do
    printed=$("$depth" "$here/$name.so" "$limit")
    if [ "$printed" = "$told" ]; then
        echo "same: $name, limit $limit"
    else
        echo "DIFFERS: $name, limit $limit: $printed, not $told"
        status=1
    fi
done < "$here/depths.txt"
exit $status
