#!/usr/bin/env bash
# cargo.sh COMMAND ..: cargo on this package, in release and with the library of target/staticlib: cargo.sh run --bin compare -- 1 300
set -euo pipefail
top=$(cd "$(dirname "$0")/../.." && pwd)
export PANEL_LIB="$top/target/staticlib" CARGO_TARGET_DIR="$top/target/compare"
command=$1
shift
exec cargo "$command" --quiet --offline --release --features panel --manifest-path "$top/tests/compare/Cargo.toml" "$@"
