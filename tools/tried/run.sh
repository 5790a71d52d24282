#!/usr/bin/env bash
# Tries the wrong programs here on a copy of the repository: run.sh [CRATE..]. Each must be refused; an edit costs
# a whole check of its crate.
set -e
here=$(cd "$(dirname "$0")" && pwd)
copy=$(mktemp -d)
trap 'rm -rf "$copy"' EXIT
git clone -q "$here/../.." "$copy/repository"
cd "$copy/repository"
crates=${*:-$(cd "$here" && ls -d */ | tr -d /)}
rm -f crates/*/must-fail/*.edit
for crate in $crates; do
    mkdir -p "crates/$crate/must-fail"
    cp "$here/$crate"/*.edit "crates/$crate/must-fail/"
done
rt must-fail $crates
