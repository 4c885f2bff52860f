#!/bin/bash
# shellcheck disable=SC2016,SC2154
{
# subtract-N.sh -a A -b B -f F: for subtract -N: drops a record if all of B cover more than the fraction of it together.
here=$(readlink -f -- "${BASH_SOURCE[0]}") || exit 2
# shellcheck source=functions.sh source-path=SCRIPTDIR
. "${here%/*}/functions.sh" || exit 2
begin "$@" || exit 2
read_words '-a: -b: -f:' "$@"
all_of -a -b -f
work
records "$opt_a" > "$folder/a.bed"
bt merge -i "$opt_b" > "$folder/b.bed"
from "$folder/a.bed" awk -F'\t' -v OFS='\t' '{ print $1, $2, $3, NR }' |
    bt intersect -a - -b "$folder/b.bed" -wo | cut -f 4,8 > "$folder/bases"
from "$folder/a.bed" awk -F'\t' -v fraction="$opt_f" "$next_line"'
    BEGIN { while (next_line("bases")) { split(found, pair, "\t"); bases[pair[1]] += pair[2] } }
    bases[NR] / ($3 - $2) <= fraction'
exit
}
