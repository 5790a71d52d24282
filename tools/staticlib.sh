#!/usr/bin/env bash
# Proves and builds the C interface, and puts it where C and Rust link it: target/staticlib/libexports.a.
set -e
cd "$(dirname "$0")/.."
(cd crates/exports_c && rt lib)
mkdir -p target/staticlib
cp crates/exports_c/out/libexports_c.a target/staticlib/libexports.a
