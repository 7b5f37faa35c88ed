#!/usr/bin/env bash
# What the program zukeroha prints, and how it ends, on the built program.
set -u
root=$(cd "$(dirname "$0")/../.." && pwd)
program=$root/crates/zukeroha/out/zukeroha
work=$(mktemp -d)
trap 'rm -rf "$work"' EXIT
bad=0
tried=0

# expect STATUS STDOUT WORDS..: runs the program; standard error must be one line if and only if it failed with nothing on standard output.
expect() {
    local status=$1 out=$2
    shift 2
    "$program" "$@" > "$work/out" 2> "$work/err" < "${input:-/dev/null}"
    local got=$?
    tried=$((tried + 1))
    if [ "$got" -ne "$status" ] || [ "$(cat "$work/out")" != "$out" ]; then
        echo "zukeroha $*: status $got, wanted $status; printed: $(head -c 300 "$work/out"); said: $(head -c 300 "$work/err")"
        bad=1
    fi
    if [ "$status" -ne 0 ] && [ -z "$out" ] && { [ "$(wc -l < "$work/err")" -ne 1 ] || ! grep -q '^zukeroha: ' "$work/err"; }; then
        echo "zukeroha $*: standard error is not one line of the program's: $(cat "$work/err")"
        bad=1
    fi
}

cd "$root" || exit 1
given=(--key examples/key.hex --office 7 --serial 42)
tag=b9c609c0320c7349e9cfa6c017a27c22
size=$(wc -c < examples/payroll.csv)

expect 0 "smac-1 $size 7 42 $tag examples/payroll.csv" tag "${given[@]}" examples/payroll.csv
expect 0 "smac-1 $size 7 42 ${tag:0:8} examples/payroll.csv" tag --bytes 4 "${given[@]}" examples/payroll.csv
input=examples/payroll.csv expect 0 "smac-1 $size 7 42 $tag -" tag "${given[@]}" -
expect 0 same check --tag "$tag" "${given[@]}" examples/payroll.csv
expect 0 same check --tag "${tag:0:8}" "${given[@]}" examples/payroll.csv
expect 1 differs check --tag "00${tag:2}" "${given[@]}" examples/payroll.csv
expect 1 differs check --tag "$tag" --header examples/header.txt "${given[@]}" examples/payroll.csv
expect 1 differs check --tag "$tag" --mode smac-1x1 "${given[@]}" examples/payroll.csv

# every mode tags what it checks
for mode in smac-1 smac-3/4 smac-1/2 smac-1x1 smac-1x4 smac-1x16; do
    line=$("$program" tag --mode "$mode" --header examples/header.txt "${given[@]}" examples/payroll.csv)
    expect 0 same check --mode "$mode" --header examples/header.txt --tag "$(cut -d ' ' -f 5 <<< "$line")" "${given[@]}" examples/payroll.csv
done

# what is wrong is said in one line, with status 1
expect 1 "" tag
expect 1 "" shred examples/payroll.csv
expect 1 "" tag "${given[@]}" no-such-file
expect 1 "" tag "${given[@]}" --mode smac-2 examples/payroll.csv
expect 1 "" tag "${given[@]}" --mode smac-1x17 examples/payroll.csv
expect 1 "" tag "${given[@]}" --bytes 1 examples/payroll.csv
expect 1 "" tag "${given[@]}" --bytes 17 examples/payroll.csv
expect 1 "" tag "${given[@]}" --office 8 examples/payroll.csv
expect 1 "" tag --key examples/payroll.csv --office 7 --serial 42 examples/payroll.csv
expect 1 "" tag --key examples/key.hex --office 4294967296 --serial 42 examples/payroll.csv
expect 1 "" check --tag xyz "${given[@]}" examples/payroll.csv
printf '000102030405060708090a0b0c0d0e\n' > "$work/short.hex"
expect 1 "" tag --key "$work/short.hex" --office 7 --serial 42 examples/payroll.csv

# same FILE FILE: the two files have the same bytes.
same() {
    cmp -s "$1" "$2" || { echo "$1 and $2 differ"; bad=1; }
}

# what is sealed opens again: a file, an empty one, the largest, one from standard input, one with a header
given=(--key examples/key.hex --office 7 --serial 43)
: > "$work/empty"
head -c 1048576 /dev/urandom > "$work/largest"
for file in examples/payroll.csv "$work/empty" "$work/largest"; do
    size=$(wc -c < "$file")
    expect 0 "section $size 7 43 $work/sealed" seal "${given[@]}" "$file" "$work/sealed"
    [ "$(wc -c < "$work/sealed")" -eq $((size + 16)) ] || { echo "the section of $file has another length"; bad=1; }
    expect 0 "section $size 7 43 $work/opened" open "${given[@]}" "$work/sealed" "$work/opened"
    same "$file" "$work/opened"
done
size=$(wc -c < examples/payroll.csv)
input=examples/payroll.csv expect 0 "section $size 7 43 $work/sealed" seal --header examples/header.txt "${given[@]}" - "$work/sealed"
expect 0 "section $size 7 43 $work/opened" open --header examples/header.txt "${given[@]}" "$work/sealed" "$work/opened"
same examples/payroll.csv "$work/opened"

# refused WORDS..: 'open' with these words is refused; a file at OUT keeps its bytes, and none is made.
refused() {
    echo "as it was" > "$work/kept"
    cp "$work/kept" "$work/there"
    rm -f "$work/absent"
    expect 1 "" open "$@" "$work/there"
    same "$work/kept" "$work/there"
    expect 1 "" open "$@" "$work/absent"
    [ ! -e "$work/absent" ] || { echo "zukeroha open $*: made a file"; bad=1; }
}

expect 0 "section $size 7 43 $work/sealed" seal "${given[@]}" examples/payroll.csv "$work/sealed"
for at in 0 700 $((size - 1)) "$size" $((size + 15)); do
    cp "$work/sealed" "$work/damaged"
    byte=$(od -An -tu1 -j "$at" -N 1 "$work/sealed")
    printf "\\x$(printf %02x $((byte ^ 1)))" | dd of="$work/damaged" bs=1 seek="$at" conv=notrunc status=none
    refused "${given[@]}" "$work/damaged"
done
head -c 15 "$work/sealed" > "$work/damaged"
refused "${given[@]}" "$work/damaged"
head -c 1048593 /dev/zero > "$work/damaged"
refused "${given[@]}" "$work/damaged"
printf '000102030405060708090a0b0c0d0e0f\n' > "$work/other.hex"
refused --key "$work/other.hex" --office 7 --serial 43 "$work/sealed"
refused --key examples/key.hex --office 8 --serial 43 "$work/sealed"
refused --key examples/key.hex --office 7 --serial 44 "$work/sealed"
refused --header examples/header.txt "${given[@]}" "$work/sealed"
refused "${given[@]}" no-such-file

# too long, and wrong words
head -c 1048577 /dev/zero > "$work/long"
expect 1 "" seal "${given[@]}" "$work/long" "$work/absent"
grep -q 'at most 1048576 bytes' "$work/err" || { echo "the limit of a section is not said"; bad=1; }
expect 1 "" seal --header "$work/long" "${given[@]}" examples/payroll.csv "$work/absent"
grep -q 'at most 1048576 bytes' "$work/err" || { echo "the limit of a header is not said"; bad=1; }
input=/dev/zero expect 1 "" seal "${given[@]}" - "$work/absent"
expect 1 "" seal "${given[@]}" examples/payroll.csv
expect 1 "" seal "${given[@]}" examples/payroll.csv "$work/absent" third
expect 1 "" seal "${given[@]}" examples/payroll.csv -
expect 1 "" seal --mode smac-1 "${given[@]}" examples/payroll.csv "$work/absent"
expect 1 "" open --progress "${given[@]}" "$work/sealed" "$work/absent"
expect 1 "" seal --key examples/key.hex --office 7 examples/payroll.csv "$work/absent"
[ ! -e "$work/absent" ] || { echo "zukeroha seal: made a file though it was refused"; bad=1; }
expect 1 "" seal "${given[@]}" examples/payroll.csv "$work/no-such-folder/sealed"
expect 1 "" tag "${given[@]}" examples/payroll.csv examples/header.txt

"$program" help > "$work/out" && [ -s "$work/out" ] || { echo "zukeroha help: nothing printed"; bad=1; }
[ "$bad" -ne 0 ] || echo "zukeroha.sh: $tried runs as expected"
exit "$bad"
