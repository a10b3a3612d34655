#!/bin/bash
# Counts instructions by callgrind, proved and in plain C, and prints tables in Markdown.
#
#     instructions.sh [calls] [regions] [lines] [growth]
#
# calls    each kind of call, inside the library's function: the difference of 2 N and N calls, divided by N
# regions  accesses and maps with 0 to 11 regions enabled, likewise
# lines    each kind of line, of the whole program: the difference of 2,000 and 1,000 equal lines, and of 20,000 and 10,000 others
# growth   the whole program on 100,000 to 4,000,000 mixed lines: instructions of a line, seconds of the user's time, memory
#
# By hand, not in the gate: growth takes minutes, the others one. Needs valgrind and GNU time, from Debian's packages. The variable
# PROGRAM names another proved program than crates/suthrain/out/suthrain.
set -eu
cd "$(dirname "$0")"
program=$(realpath "${PROGRAM:-../crates/suthrain/out/suthrain}")
work=target/instructions
mkdir -p "$work"
cargo build --quiet --release --features proved --bin count
count=target/release/count
yardstick=$("$count" yardstick)

# ---- calls

# Prints for each row of a table its name, and the instructions of one call, proved and in C. The counts lie in files, four of a row:
# proved once and twice, C once and twice.
counted() { # TABLE
    local k=1 n name
    rm -f "$work"/out*
    valgrind --tool=callgrind --callgrind-out-file="$work/out" --collect-atstart=no --toggle-collect='rif_*' --toggle-collect='yard_*' \
        --zero-before=counted --dump-after=counted "$count" "$1" >"$work/names" 2>"$work/log"
    while IFS=$'\t' read -r n name; do
        printf '%s\t%s\t%s\t%s\n' "$name" "$n" $(($(total $((k + 1))) - $(total "$k"))) $(($(total $((k + 3))) - $(total $((k + 2)))))
        k=$((k + 4))
    done <"$work/names" | awk -F '\t' '{ printf "%s\t%.0f\t%.0f\t%.2f\n", $1, $3 / $2, $4 / $2, $3 / $4 }'
}

total() { sed -n 's/^totals: //p' "$work/out.$1"; }

head_of() { # WHAT
    printf '\n| %s | proved | C | proved / C |\n|---|---:|---:|---:|\n' "$1"
}

calls() {
    head_of call
    counted calls | awk -F '\t' '{ printf "| %s | %s | %s | %s |\n", $1, $2, $3, $4 }'
}

# Three rows of the table, in the order of its columns, are one.
regions() {
    printf '\n| regions enabled | access, all cover: proved | C | access, one covers: proved | C | map: proved | C |\n'
    echo '|---:|---:|---:|---:|---:|---:|---:|'
    counted regions | awk -F '\t' '{ cells = cells " | " $2 " | " $3 } NR % 3 == 0 { printf "| %d%s |\n", $1, cells; cells = "" }'
}

# ---- lines

# The instructions of a program on a script.
whole() { # PROGRAM SCRIPT
    valgrind --tool=callgrind --callgrind-out-file=/dev/null "$1" <"$2" 2>&1 >/dev/null | sed -n 's/.*Collected : //p'
}

# A row for a script of 2 N lines, behind a beginning.
row() { # NAME SCRIPT N [BEGINNING]
    local begin=${4:-/dev/null} p c
    head -n "$3" "$2" | cat "$begin" - >"$work/once"
    cat "$begin" "$2" >"$work/twice"
    p=$(($(whole "$program" "$work/twice") - $(whole "$program" "$work/once")))
    c=$(($(whole "$yardstick" "$work/twice") - $(whole "$yardstick" "$work/once")))
    awk -v name="$1" -v p="$p" -v c="$c" -v n="$3" 'BEGIN { printf "| %s | %.0f | %.0f | %.2f |\n", name, p / n, c / n, p / c }'
}

# A row for a line, its tabs given as spaces.
line() { # LINE [NOTE] [BEGINNING]
    for ((k = 0; k < 2000; k++)); do echo "${1// /$'\t'}"; done >"$work/equal"
    row "\`$1\`${2:-}" "$work/equal" 1000 "${3:-/dev/null}"
}

write() { # OFFSET DATA
    printf 'reg\trisaf\t4\t%08x\tw\t%08x\ts\tp\n' "$1" "$2"
}

# Guard 4 with as many rows as its map can have: each region has a part of the window, and its two subregions lie apart in it.
tiled() {
    for ((x = 0; x < 11; x++)); do
        local at=$((0x40 * (x + 1))) low=$((0x10000000 * x))
        write $((at + 0x04)) $((low + 0x01000000))
        write $((at + 0x08)) $((low + 0x0cffffff))
        write $((at + 0x0c)) $((0x00020002))
        write $((at + 0x14)) $((low + 0x03000000))
        write $((at + 0x18)) $((low + 0x04ffffff))
        write $((at + 0x24)) $((low + 0x07000000))
        write $((at + 0x28)) $((low + 0x08ffffff))
        write $((at + 0x10)) $((0x00003121))
        write $((at + 0x20)) $((0x00003131))
        write "$at" $((0x00000101))
    done
}

lines() {
    head_of line
    tiled >"$work/tiled"
    line 'mem 4 00001000 4 r 1 s p' ', reset, granted'
    line 'mem 12 00001000 4 w 2 n u' ', reset, refused'
    line 'mem 4 54000000 4 r 2 s p' ', map of 67 spans' "$work/tiled"
    line 'dma 1 4 00001000 4 r'
    line 'per 60 r n p'
    line 'reg rifsc 00000010 w 12345678 s p'
    line 'reg iac 00000000 r 00000000 s p'
    line 'reg risaf 4 00000044 r 00000000 s p'
    line 'reg risaf 4 00000044 w 12345678 s p'
    line 'map 4' ', 1 span'
    line 'map 4' ', 67 spans' "$work/tiled"
    line 'reset'
    line 'mem 4 0000100g 4 r 1 s p' ', bad'
    "$count" mem 20000 >"$work/script"
    row 'mem line of the benchmarks' "$work/script" 10000
    "$count" mixed 20000 >"$work/script"
    row 'line of a mixed script' "$work/script" 10000
}

growth() {
    printf '\n| mixed lines | instructions of one: proved | C | seconds: proved | C | MiB: proved | C |\n'
    echo '|---:|---:|---:|---:|---:|---:|---:|'
    for n in 100000 400000 1000000 4000000; do
        "$count" mixed "$n" >"$work/script"
        for side in "$program" "$yardstick"; do
            /usr/bin/time -f '%U %M' -o "$work/time" "$side" <"$work/script" >/dev/null
            echo "$(whole "$side" "$work/script") $(cat "$work/time")"
        done | paste -sd ' ' | awk -v n="$n" \
            '{ printf "| %d | %.0f | %.0f | %.2f | %.2f | %.1f | %.1f |\n", n, $1 / n, $4 / n, $2, $5, $3 / 1024, $6 / 1024 }'
    done
}

[ $# -gt 0 ] || set -- calls regions lines growth
for wish in "$@"; do
    case $wish in
    calls | regions | lines | growth) "$wish" ;;
    *) sed -n 's/^# \{0,1\}//p' "$0" | head -n 13 >&2 && exit 2 ;;
    esac
done
