#!/bin/bash
# shellcheck disable=SC2016,SC2154
{
# intersect-bam.sh -a BAM -b B [-v] [-ubam] [-f F]: for -abam: the alignments that B hits, or with -v doesn't, as BAM.
# Each read is known by the number of its line. -v keeps reads without a place, as bedtools does.
here=$(readlink -f -- "${BASH_SOURCE[0]}") || exit 2
# shellcheck source=functions.sh source-path=SCRIPTDIR
. "${here%/*}/functions.sh" || exit 2
begin "$@" || exit 2
read_words '-a: -b: -f: -v -ubam -g:' "$@"
all_of -a -b
twice "$opt_a"
work
form=-b
[ -z "${opt_ubam-}" ] || form=-u
from "$opt_a" samtools view - | awk -F'\t' -v OFS='\t' '{ $1 = NR; print }' |
    bt bamtobed | bt intersect -a - -b "$opt_b" -u ${opt_f:+-f "$opt_f"} ${opt_g:+-g "$opt_g"} |
    cut -f 4 | sed 's/\/.*//' > "$folder/hits"
from "$opt_a" samtools view -h - | awk -v is_v="${opt_v:-0}" "$next_line"'
    BEGIN { while (next_line("hits")) hit[found] }
    /^@/ && !n { print; next } (++n in hit) != is_v' |
    samtools view $form
exit
}
