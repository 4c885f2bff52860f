#!/bin/bash
# shellcheck disable=SC2016,SC2154
{
# intersect-split.sh -a A -b B -u | -v: for -split: a record is hit if one of its BED12 blocks is.
here=$(readlink -f -- "${BASH_SOURCE[0]}") || exit 2
# shellcheck source=functions.sh source-path=SCRIPTDIR
. "${here%/*}/functions.sh" || exit 2
begin "$@" || exit 2
read_words '-a: -b: -sorted -u -v' "$@"
all_of -a -b
one_of -u -v
work
# The blocks of standard input, each with the number of its record.
blocks() {
    awk -F'\t' -v OFS='\t' '
        NF < 12 { print $1, $2, $3, NR; next }
        { n = split($11, size, ","); split($12, from, ",")
          for (i = 1; i <= n; i++) if (size[i]) print $1, $2 + from[i], $2 + from[i] + size[i], NR }' |
        in_order
}
records "$opt_a" > "$folder/a.bed"
records "$opt_b" | blocks > "$folder/b.blocks"
blocks < "$folder/a.bed" | bt intersect -u -a - -b "$folder/b.blocks" | cut -f 4 > "$folder/hits"
from "$folder/a.bed" awk -v is_v="${opt_v:-0}" "$next_line"'
    BEGIN { while (next_line("hits")) hit[found] }
    (NR in hit) != is_v'
exit
}
