#!/bin/bash
# Fuzzes the program's input for a while and compares what it prints with the second program.
#
#     fuzz.sh [SECONDS] [PROGRAM]
#
# The program has no instrumentation in it, and Debian's AFL++ has neither its QEMU nor its Frida mode, so nothing can follow
# the program's own branches. What is followed are the branches of the second program, the filter, built with the compiler's
# coverage and AFL++'s runtime: it reads the same lines by the same rules. Every input that led anywhere new there is then given
# to the program and to the plain filter, and both outputs have to be the same.
set -eu
cd "$(dirname "$0")"
seconds=${1:-60}
program=$(realpath "${2:-../crates/suthrain/out/suthrain}")
work=target/fuzz
runtime=/usr/lib/afl/afl-compiler-rt.o

if ! command -v afl-fuzz >/dev/null || ! [ -e "$runtime" ]; then
    apt-get install -y --no-install-recommends afl++ || { apt-get update && apt-get install -y --no-install-recommends afl++; }
fi

cargo build --quiet --release --bin filter --bin scripts
host=$(rustc -vV | sed -n 's/^host: //p')
RUSTFLAGS="-C passes=sancov-module -C llvm-args=-sanitizer-coverage-level=3 -C llvm-args=-sanitizer-coverage-trace-pc-guard \
    -C codegen-units=1 -C link-arg=$runtime" \
    cargo build --quiet --release --bin filter --target "$host" --target-dir "$work/build"

rm -rf "$work/seeds" "$work/found"
mkdir -p "$work/seeds"
target/release/scripts "$work/seeds" 60
for example in ../examples/*.txt; do
    if [ -e "$example" ]; then cp "$example" "$work/seeds/"; fi
done
for word in reset reg rifsc iac risaf per mem dma map; do echo "\"$word\""; done >"$work/words"
printf '"%s"\n' '\x09' '\x0a' 4294967295 00010000 0001ffff ffffffff >>"$work/words"

AFL_NO_UI=1 AFL_NO_AFFINITY=1 AFL_SKIP_CPUFREQ=1 AFL_I_DONT_CARE_ABOUT_MISSING_CRASHES=1 \
    afl-fuzz -i "$work/seeds" -o "$work/found" -x "$work/words" -V "$seconds" -- "$work/build/$host/release/filter" \
    >"$work/log" 2>&1 || { tail -20 "$work/log"; exit 1; }

inputs=0 differing=0
for input in "$work"/found/default/{queue,crashes,hangs}/id*; do
    if ! [ -e "$input" ]; then continue; fi
    inputs=$((inputs + 1))
    timeout 20 "$program" <"$input" >"$work/got" || echo "ended badly" >>"$work/got"
    timeout 20 target/release/filter <"$input" >"$work/expected" || echo "ended badly as well" >>"$work/expected"
    if ! cmp -s "$work/got" "$work/expected"; then
        differing=$((differing + 1))
        echo "differs: $input"
    fi
done
sed -n 's/^\(execs_done\|edges_found\|bitmap_cvg\) *: /\1 /p' "$work/found/default/fuzzer_stats"
echo "fuzz: $inputs inputs, $differing differ"
[ "$inputs" -gt 0 ] && [ "$differing" -eq 0 ]
