#!/bin/sh
# Installs Debian's packaged crates and points cargo at them. After this the workspace
# builds with no network: `cargo build --release --offline`.
# Rust 1.73 or newer is needed (usize::div_ceil), so Debian 12's own rustc 1.63 is not
# enough; its rustc-web and cargo-web are, as is any newer toolchain at hand.
set -eu
cd "$(dirname "$0")"

packages="librust-rand-dev librust-rand-chacha-dev librust-rand-distr-dev
librust-serde-dev librust-serde-json-dev librust-thiserror-dev"

missing=""
for package in $packages; do
    dpkg -s "$package" >/dev/null 2>&1 || missing="$missing $package"
done
if [ -n "$missing" ]; then
    apt-get update
    # shellcheck disable=SC2086
    apt-get install -y --no-install-recommends $missing
fi

# Where the packages put their sources: asked of dpkg, not written down here.
registry=$(dpkg -L librust-serde-dev | sed -n 's,^\(.*/cargo/registry\)/.*,\1,p' | head -n 1)
mkdir -p .cargo
cat > .cargo/config.toml <<CONFIG
[source.crates-io]
replace-with = "packaged"

[source.packaged]
directory = "$registry"

[net]
offline = true
CONFIG
echo "cargo uses $registry"
