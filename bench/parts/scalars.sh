#!/usr/bin/env bash
# Compares the calls of ion_value on text with plain Rust; see docs/SPEED.md. Run from the root of the repository.
set -u
work=$(mktemp -d)
trap 'rm -rf "$work"' EXIT
rustc -O -C target-cpu=x86-64-v2 bench/parts/scalars.rs -o "$work/plain" || exit 1
mkdir -p "$work/repository/crates/ion_speed/src"
cp -r crates/ion_meter crates/ion_value "$work/repository/crates/"
cp bench/parts/scalars.rattle "$work/repository/crates/ion_speed/src/main.rt"
{ grep -E '^(ion_meter|ion_value):' crates.txt; echo 'ion_speed: ion_meter ion_value arrayvec'; } > "$work/repository/crates.txt"
(cd "$work/repository/crates/ion_speed" && rt run -- none > "$work/log" 2>&1)
ion="$work/repository/crates/ion_speed/out/ion_speed"
[ -x "$ion" ] || { cat "$work/log"; exit 1; }
ints='0 7 -42 1234 99999999 -1234567890123 340282366920938463463374607431768211455 0xFF'
decimals='1.5 -0. 15d-1 3.14159 100.00 12345678.901234 1d6 -99.95'
moments='2007T 2007-01-02 2011-02-20T11:30:59.100-08:00 2000-01-01T00:00:00Z 2026-11-22T12:00:00.123456Z 1999-12-31T23:59-00:00'
texts='2011-02-20T11:30:59.100-08:00 2000-01-01T00:00:00Z 2026-11-22T12:00:00.123456Z'
measure() {
    for turn in 1 2 3 4 5; do
        for program in "$ion" "$work/plain"; do
            begin=$(date +%s%N)
            "$program" "$@"
            status=$?
            end=$(date +%s%N)
            echo "$(basename "$program") $(((end - begin) / 1000000)) $status"
        done
    done | awk -v call="$1" '{ if (!($1 in best) || $2 < best[$1]) best[$1] = $2; sum[$1] = $3 }
        END { printf "%s: ion %d ms, plain Rust %d ms, ratio %.2f%s\n", call, best["ion_speed"], best["plain"], best["ion_speed"] / best["plain"],
              (sum["ion_speed"] == sum["plain"] ? "" : ", DIFFERENT RESULTS") }'
}
measure int $ints
measure decimal $decimals
measure timestamp $moments
measure text $texts
measure decimal_text 1.5 -0.005 12345678.901234
measure decimal_text 15d1 -3.14159 3.40282366920938463463374607431768211455
