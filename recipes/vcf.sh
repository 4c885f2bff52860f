#!/bin/bash
# shellcheck disable=SC2016,SC2154
{
# vcf.sh FILE: VCF as sorted BED of six columns, and the line after them. A structural variant, as <DEL>, is a fault.
here=$(readlink -f -- "${BASH_SOURCE[0]}") || exit 2
# shellcheck source=functions.sh source-path=SCRIPTDIR
. "${here%/*}/functions.sh" || exit 2
begin "$@" || exit 2
from "$1" awk -F'\t' -v OFS='\t' '{ sub(/\r$/, "") } NF && !/^#/ {
    if ($5 ~ /[<\[\]]/) { print "vcf.sh: a structural variant: line " NR > "/dev/stderr"; exit 1 }
    start = $2 - 1; end = start + length($4)
    print $1, start, end, ".", 0, ".", $0 }' | in_order
exit
}
