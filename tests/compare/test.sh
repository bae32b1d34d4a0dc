#!/usr/bin/env bash
# The tests of this package, which need target/staticlib/libpanel.a. The last line is 'N passed, M failed'.
set -uo pipefail
log=$(mktemp)
trap 'rm -f "$log"' EXIT
"$(dirname "$0")/cargo.sh" test --no-fail-fast 2>&1 | tee "$log"
status=${PIPESTATUS[0]}
awk -v status="$status" '
    /^test result:/ { passed += $4; failed += $6 }
    END {
        if (status != 0 && failed == 0) failed = 1
        print passed + 0 " passed, " failed + 0 " failed"
    }' "$log"
exit "$status"
