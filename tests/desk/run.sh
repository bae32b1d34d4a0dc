#!/usr/bin/env bash
# Runs the desk program where reading or writing fails, stops short or comes in pieces. Argument: the program (default
# target/bin/desk). The last line is 'N passed, M failed'.
set -eu
here=$(cd "$(dirname "$0")" && pwd)
exec python3 "$here/desk.py" "${1:-$here/../../target/bin/desk}"
