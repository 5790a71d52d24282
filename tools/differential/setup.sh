#!/bin/sh
# Installs the Debian packages that the Rust side needs and points cargo at the
# crate sources they bring. Run once, as root. Needs no crates registry.
set -e
here=$(cd "$(dirname "$0")" && pwd)
apt-get update -q
apt-get install -y --no-install-recommends \
    librust-byteorder-dev librust-hash32-dev librust-thiserror-dev librust-rand-dev
registry=$(dirname "$(dpkg -L librust-byteorder-dev | grep '/byteorder-[^/]*$' | head -1)")
mkdir -p "$here/.cargo"
cat > "$here/.cargo/config.toml" <<CONFIG
[source.crates-io]
replace-with = "debian"

[source.debian]
directory = "$registry"

[net]
offline = true
CONFIG
echo "cargo now takes its crates from $registry"
