#!/bin/bash
# shellcheck disable=SC2016,SC2154
{
# bam.sh BAM [[-split] [-splitD] [-cigar] | -ed | -tag XX | -bed12 [-color C]]: for bamtobed of BAM: its alignments as
# BED. A mapped read without the tag, or whose tag isn't a whole number, is a fault.
here=$(readlink -f -- "${BASH_SOURCE[0]}") || exit 2
# shellcheck source=functions.sh source-path=SCRIPTDIR
. "${here%/*}/functions.sh" || exit 2
begin "$@" || exit 2
bam=$1
shift
read_words '-split -cigar -splitD -ed -tag: -bed12 -color:' "$@"
# With these bedtools writes something else, or nothing.
if [ -n "${opt_ed-}${opt_tag-}" ]; then one_of -ed -tag -split -cigar -splitD -bed12; fi
[ -z "${opt_bed12-}" ] || one_of -bed12 -splitD
[ -z "${opt_color-}" ] || one_of -bed12
[ -z "${opt_ed-}" ] || opt_tag=NM
# Beside -split bedtools leaves the CIGAR out.
[ -z "${opt_split-}" ] || opt_cigar=
if [ -n "${opt_tag-}" ]; then
    from "$bam" samtools view - | awk -F'\t' -v OFS='\t' -v tag="$opt_tag" '{ value = ""
        for (i = 12; i <= NF; i++)
            if (index($i, tag ":i:") == 1) value = substr($i, 6)
        if (value == "" && int($2 / 4) % 2 == 0) exit 1
        $1 = value "\001" $1; print }' | bt bamtobed ${opt_split:+-split} |
        awk -F'\t' -v OFS='\t' '{ split($4, was, "\001")
            print $1, $2, $3, was[2], was[1], $6 }'
elif [ -n "${opt_bed12-}" ]; then
    from "$bam" samtools view - | awk -F'\t' -v OFS='\t' '{ $1 = NR "\001" $1
        print }' | bt bamtobed -split | awk -F'\t' -v OFS='\t' -v color="${opt_color:-255,0,0}" '
        function line() { if (n) print chrom, low, high, name, score, strand,
            low, high, color, n, sizes, starts }
        $4 != id { line(); id = $4; chrom = $1; low = $2; score = $5; strand = $6
            name = substr($4, index($4, "\001") + 1); n = 0; sizes = starts = "" }
        { comma = n++ ? "," : ""; high = $3; sizes = sizes comma $3 - $2
            starts = starts comma $2 - low } END { line() }'
elif [ -n "${opt_splitD-}" ]; then
    from "$bam" samtools view - | n_for_d | bt bamtobed -split
else
    from "$bam" samtools view - | bt bamtobed ${opt_split:+-split} ${opt_cigar:+-cigar}
fi
exit
}
