#!/bin/bash
# shellcheck disable=SC2016,SC2154
{
# genomecov-bam.sh -ibam BAM [-split] [-ignoreD] [-du] [-strand S] [-5 | -3] -bg | -bga | -d: for genomecov -ibam, whose
# genome is that of the header. bedtools leaves out deletions (D) and counts introns (N); with -split it leaves out
# both, with -ignoreD it counts deletions.
here=$(readlink -f -- "${BASH_SOURCE[0]}") || exit 2
# shellcheck source=functions.sh source-path=SCRIPTDIR
. "${here%/*}/functions.sh" || exit 2
begin "$@" || exit 2
read_words '-ibam: -strand: -bg -bga -d -5 -3 -split -ignoreD -du' "$@"
all_of -ibam
one_of -bg -bga -d
twice "$opt_ibam"
[ -z "${opt_5-}${opt_3-}" ] || one_of -5 -3
work
bam_genome "$opt_ibam" > "$folder/genome"
cut_at() {
    if [ -n "${opt_ignoreD-}${opt_5-}${opt_3-}" ]; then
        cat
    elif [ -n "${opt_split-}" ]; then
        n_for_d
    else
        exchange_d_n
    fi
}
# Whole alignments for the ends of reads, and if deletions and introns count.
split=(-split)
[ -z "${opt_5-}${opt_3-}" ] || split=()
[ -z "${opt_ignoreD-}" ] || split=(${opt_split:+-split})
each_base() { awk -F'\t' '{ for (i = $2 + 1; i <= $3; i++) printf "%s\t%.0f\t%s\n", $1, i, $4 }'; }
from "$opt_ibam" samtools view - | cut_at | bt bamtobed "${split[@]}" |
    awk -F'\t' -v OFS='\t' -v du="${opt_du-}" -v five="${opt_5-}" -v three="${opt_3-}" '
    du && $4 ~ /\/2$/ { $6 = $6 == "+" ? "-" : "+" }
    five || three { p = three ? ($6 == "-" ? $2 : $3 - 1) : ($6 == "+" ? $2 : $3 - 1); $2 = p; $3 = p + 1 }
    { print }' | by_genome "$folder/genome" |
    bt genomecov -g "$folder/genome" ${opt_strand:+-strand "$opt_strand"} "-bg${opt_bga:+a}${opt_d:+a}" |
    if [ -n "${opt_d-}" ]; then each_base; else cat; fi
exit
}
