#!/bin/sh
# Tests libpanel.a from C. panel.c and stack.c count for themselves; what vectors.c prints on each vectors/*.txt is compared with its
# .expected, and each line counts; what the examples print, the archive's symbols and the commands of docs/PANEL.md count too.
# Argument: the folder of libpanel.a (default target/staticlib). The last line is 'N passed, M failed' of all.
set -eu
here=$(cd "$(dirname "$0")" && pwd)
top=$(cd "$here/../.." && pwd)
lib=${1:-$top/target/staticlib}
lib=$(cd "$lib" && pwd)/libpanel.a
tmp=$(mktemp -d)
trap 'rm -rf "$tmp"' EXIT
strict='-Wall -Wextra -Werror -O2'
sanitize='-fsanitize=address,undefined -fno-sanitize-recover=undefined'

# The sanitizers only where a program can be linked and run with them.
echo 'int main(void) { return 0; }' >"$tmp/try.c"
if ! { gcc $sanitize "$tmp/try.c" -o "$tmp/try" && "$tmp/try"; } >/dev/null 2>&1; then sanitize=; fi

# compile NAME SOURCE FLAGS..
compile() {
    name=$1
    source=$2
    shift 2
    gcc $strict "$@" -I "$top/include" "$source" "$lib" -lpthread -o "$tmp/$name"
}

# Compares stored lines with those printed, each but a heading a test, and tells the first ten differences with their headings.
compare() {
    awk '
        FNR == NR { stored[FNR] = $0; lines = FNR; next }
        { printed[FNR] = $0; if (FNR > lines) lines = FNR }
        END {
            for (i = 1; i <= lines; i++) {
                want = (i in stored) ? "\"" stored[i] "\"" : "nothing"
                got = (i in printed) ? "\"" printed[i] "\"" : "nothing"
                if (want ~ /^"#/) heading = stored[i]
                if (want == got) passed += want !~ /^"#/
                else if (++failed <= 10) print "line " i " under \"" heading "\": printed " got ", stored " want
            }
            print passed + 0 " passed, " failed + 0 " failed"
        }' "$1" "$2"
}

# The example with these arguments: what it prints, on either stream, and its status.
example() {
    status=0
    (cd "$top/example" && "$tmp/example" "$@") >"$tmp/said" 2>&1 || status=$?
    echo "$(cat "$tmp/said") ($status)"
}

# The indented block number $3 under the heading $2 of page $1. A blank line inside a block belongs to it.
block() {
    awk -v heading="## $2" -v wanted="$3" '
        /^## / { under = $0 == heading; count = 0; inside = 0; blank = ""; next }
        under && /^    / {
            if (!inside) count++
            if (count == wanted) print blank substr($0, 5)
            inside = 1
            blank = ""
            next
        }
        under && inside && /^$/ { blank = blank "\n"; next }
        { inside = 0; blank = "" }' "$top/$1"
}

# docs/PANEL.md's example on a text of these rows.
feed() {
    printf '%s\n' trip_id,arrival_time,departure_time,stop_id,stop_sequence "$@" | "$tmp/feed"
}

# Runs a block of commands as written, from the top, and keeps what it prints.
follow() {
    block docs/PANEL.md "$1" 1 >"$tmp/commands"
    test -s "$tmp/commands" || echo "no commands under $1"
    (cd "$top" && sh -e "$tmp/commands") 2>&1 || echo "the commands under $1 ended with status $?"
}

# program PAGE HEADING READING DECLARATIONS..: the first block under a heading of a page as a program. What comes before the block's
# first call stands outside of main, with the declarations; the line READING, which reads the input, comes before that call.
program() {
    page=$1
    heading=$2
    reading=$3
    shift 3
    printf '%s\n' '#include <stdio.h>' '#include "ttg.h"'
    block "$page" "$heading" 1 | sed '/^uint64_t/,$d'
    printf '%s\n' "$@" 'int main(void)' '{' "$reading"
    block "$page" "$heading" 1 | sed -n '/^uint64_t/,$p'
    printf '%s\n' '}'
}

program README.md 'From C' 'size_t len = fread(file, 1, sizeof file, stdin);' \
    'static uint8_t file[TTG_FILE_BYTES(500, 2000) + 1];' >"$tmp/readme.c"
program docs/PANEL.md 'Timetables from GTFS' 'size_t stops = 3, text_len = fread(text, 1, sizeof text, stdin);' >"$tmp/feed.c"

compile panel "$here/panel.c" -std=c11 $sanitize
compile vectors "$here/vectors.c" -std=c11 $sanitize
compile stack "$here/stack.c" -std=c11
compile example "$top/example/panel.c" -std=c99 -pedantic $sanitize
compile readme "$tmp/readme.c" -std=c99 -pedantic $sanitize
compile feed "$tmp/feed.c" -std=c99 -pedantic $sanitize

# The header and the example as C++ too, only where there is a compiler for it.
if command -v g++ >/dev/null; then
    g++ $strict -x c++ -I "$top/include" "$top/example/panel.c" -x none "$lib" -o "$tmp/plus"
else
    cp "$tmp/example" "$tmp/plus"
fi

"$tmp/panel" >"$tmp/panel.log" 2>&1 || true
"$tmp/stack" >"$tmp/stack.log" 2>&1 || true
for part in "$here"/vectors/*.txt; do
    "$tmp/vectors" <"$part" 2>&1 || echo "vectors ended with status $?"
done >"$tmp/printed"
cat "$here"/vectors/*.expected >"$tmp/stored"
compare "$tmp/stored" "$tmp/printed" >"$tmp/vectors.log"

cat >"$tmp/stored" <<'STORED'
arrives 640 by 0 1 (0)
arrives 595 by (0)
no 30 at 0 (1)
no 15 at 0 (1)
no 2 at 0 (1)
usage: panel FILE FROM TO TIME (2)
usage: panel FILE FROM TO TIME (2)
panel: cannot read missing: No such file or directory (2)
panel: cannot read .: Is a directory (2)
panel: 65536 is no number of 0 to 65535 (2)
panel: -1 is no number of 0 to 65535 (2)
panel: 6x is no number of 0 to 65535 (2)
panel:  is no number of 0 to 65535 (2)
arrives 620 by 0
arrives 642
refused with 1 at 0
trip_id,arrival_time,departure_time,stop_id,stop_sequence
0,09:58:00,09:58:00,0,0
0,10:20:00,10:25:00,1,1
0,10:40:00,10:40:00,2,2
row 3
row 0
refused with 8 at 1
STORED
{
    example day.ttg 0 2 595
    example day.ttg 0 0 595
    example day.ttg 0 2 607
    example day.ttg 0 65535 595
    example panel.c 0 2 595
    example
    example day.ttg 0 2 595 1
    example missing 0 2 595
    example . 0 2 595
    example day.ttg 0 2 65536
    example day.ttg 0 -1 595
    example day.ttg 6x 2 595
    example day.ttg '' 2 595
    (cd "$top/example" && "$tmp/plus" day.ttg 0 1 595)
    "$tmp/readme" <"$top/example/day.ttg"
    "$tmp/readme" </dev/null
    feed 00,99:59:00,9:58:00,00000,7 0,10:20:00,10:25:00,1,8 0,10:40:00,0:00:00,2,65535
    feed 0,9:58:00,9:58:00,0,0 0,10:20:00,10:25:00,1,1 0,10:40:00,10:40:01,2,2
    "$tmp/feed" </dev/null
    feed 0,9:58:00,9:58:00,0,0 0,10:20:00,10:25:00,1,1 0,10:40:00,10:40:00,3,2
} >"$tmp/printed" 2>&1
compare "$tmp/stored" "$tmp/printed" >"$tmp/example.log"

# What the archive needs, what it exports, and any data of its own: memcpy and memset, the functions of ttg.h, and none.
{
    printf 'needs %s\n' memcpy memset
    grep -o 'ttg_[a-z]*(' "$top/include/ttg.h" | sort -u | sed 's/^/exports /; s/($//'
} >"$tmp/stored"
{
    nm -u "$lib" | awk '$1 == "U" { print "needs " $2 }' | sort -u
    nm -g --defined-only "$lib" | awk 'NF == 3 { print "exports " $3 }' | sort -u
    nm "$lib" | awk '$2 ~ /^[bBcCdDgGsS]$/ { print "data " $3 }'
} >"$tmp/printed"
compare "$tmp/stored" "$tmp/printed" >"$tmp/symbols.log"

# The commands print last what the next block says; those that measure the stack count for themselves.
block docs/PANEL.md 'Build and link' 2 >"$tmp/stored"
follow 'Build and link' | tail -n "$(wc -l <"$tmp/stored")" >"$tmp/printed"
compare "$tmp/stored" "$tmp/printed" >"$tmp/page.log"
follow Stack >"$tmp/measured.log"

# A test whose last line does not count has failed, and so has one that counts nothing.
passed=0
failed=0
for name in panel stack vectors example symbols page measured; do
    sed "s/^/$name: /" "$tmp/$name.log"
    counts=$(tail -n 1 "$tmp/$name.log" | grep -E '^[1-9][0-9]* passed, [0-9]+ failed$' || echo '0 passed, 1 failed')
    passed=$((passed + ${counts%% *}))
    counts=${counts#*, }
    failed=$((failed + ${counts%% *}))
done
echo "$passed passed, $failed failed"
[ "$failed" -eq 0 ]
