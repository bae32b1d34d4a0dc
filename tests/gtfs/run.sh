#!/usr/bin/env bash
# Runs gtfs_import and gtfs_export on stored runs, and where reading or writing fails. Argument: the programs' folder (default
# target/bin). The last line is 'N passed, M failed'.
set -eu
here=$(cd "$(dirname "$0")" && pwd)
exec python3 "$here/gtfs.py" "${1:-$here/../../target/bin}"
