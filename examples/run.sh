#!/bin/sh
# Runs each command on the files beside this script, shows how its output begins, and compares the whole with the
# file in expected/ beside it. Ends with 1 where one differs.
#
#     examples/run.sh PROGRAM

program=$(realpath "${1:?usage: examples/run.sh PROGRAM}")
cd "$(dirname "$0")" || exit 1
found=$(mktemp)
trap 'rm -f "$found"' EXIT
differ=0

example() { # FILE WORD..: the output of these words is that of expected/FILE
    expected=expected/$1
    shift
    printf '\n$ bedtools %s\n' "$*"
    "$program" "$@" > "$found"
    head -n 3 "$found"
    lines=$(wc -l < "$found")
    [ "$lines" -le 3 ] || echo "... ($lines lines)"
    cmp "$found" "$expected" || differ=1
}

example merge.bed merge -i exons.bed -g genome.txt -d 1000
example complement.bed complement -i exons.bed -g genome.txt -L
example intersect.bed intersect -a exons.bed -b peaks.bed -g genome.txt -wo
example subtract.bed subtract -a peaks.bed -b exons.bed -g genome.txt
example genomecov.bed genomecov -i exons.bed -g genome.txt -bg
example bamtobed.bed bamtobed -i alignments.sam -split
example maskfasta.fa maskfasta -fi sequences.fa -bed repeats.bed -soft

echo
if [ "$differ" = 0 ]; then
    echo "Each output is that of its file in examples/expected."
fi
exit "$differ"
