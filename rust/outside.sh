#!/usr/bin/env bash
# Compares the proved tool with programs of others: the operators with z3, which is installed from the system's packages
# where it is missing; texts and runs with catbtor and btorsim of btor2tools, where they are on the PATH.
# It needs crates/exports/out/libexports.a, or GOFESHAN_LIB.
set -euo pipefail
cd "$(dirname "$0")"
if ! command -v z3 >/dev/null; then
  apt-get install -y z3
fi
cargo run --release --offline --quiet --example operators
cargo run --release --offline --quiet --example btor2tools
