#!/bin/sh
# Asks target/find (include/find.c) for every dynamic symbol that `readelf` lists of each example, and
# for names that none has. Status 1 if an answer is another than the listed number, 2 without the
# program. Needs binutils.
here=$(cd "$(dirname "$0")" && pwd)
find=$here/../target/find
if [ ! -x "$find" ]; then
    echo "no target/find: include/find.c says how to make it" >&2
    exit 2
fi
status=0
asked=0

# expect FILE NAME ANSWER
expect() {
    asked=$((asked + 1))
    answer=$("$find" "$1" "$2")
    if [ "$answer" != "$3" ]; then
        echo "DIFFERS: $1 $2: $answer, listed $3"
        status=1
    fi
}

for file in "$here"/*.so; do
    # number and name of each symbol but symbol 0
    listed=$(readelf -W --dyn-syms "$file" | awk '$1 ~ /^[1-9][0-9]*:$/ { print $1 $8 }')
    if [ -z "$listed" ]; then
        expect "$file" entrypoint "refused 48 BadHashTable"
        continue
    fi
    for symbol in $listed; do
        expect "$file" "${symbol#*:}" "symbol ${symbol%%:*}"
        expect "$file" "${symbol#*:}_" none
    done
    expect "$file" "" none
done
echo "$asked asked"
exit $status
