#!/bin/bash
# shellcheck disable=SC2016,SC2154
{
# subtract-F.sh -a A -b B [-f F] [-F F] [-r] [-e] [-A]: for -F, -r and -e of subtract.
here=$(readlink -f -- "${BASH_SOURCE[0]}") || exit 2
# shellcheck source=functions.sh source-path=SCRIPTDIR
. "${here%/*}/functions.sh" || exit 2
begin "$@" || exit 2
read_words '-a: -b: -f: -F: -r -e -A' "$@"
all_of -a -b
if [ -n "${opt_r-}${opt_A-}" ] && [ -z "${opt_F-}" ] && [ -n "${opt_A-}" ]; then
    bt intersect -v -a "$opt_a" -b "$opt_b" ${opt_f:+-f "$opt_f"} ${opt_r:+-r}
    exit
fi
work
carry "$opt_a" > "$folder/a.bed"
rule=()
[ -n "${opt_e-}" ] || rule+=(${opt_f:+-f "$opt_f"} ${opt_r:+-r})
# The records of B that count for a record of A, on a chromosome of its own.
bt intersect -a "$folder/a.bed" -b "$opt_b" "${rule[@]}" -wo |
    awk -F'\t' -v first="${opt_e:+${opt_f:-0}}" -v second="${opt_F:-0}" '
        $NF / ($10 - $9) >= second || (first != "" && $NF / ($3 - $2) >= first) {
        printf "%012d\t%s\t%s\n", $4, $9, $10 }' > "$folder/pairs.bed"
from "$folder/a.bed" awk -F'\t' '{ printf "%012d\t%s\t%s\t%s\n", $4, $2, $3, $7 }' |
    GENOME='' bt subtract -a - -b "$folder/pairs.bed" ${opt_A:+-A} | awk -F'\t' '{
        split($4, was, "\001"); old = length(was[1] was[2] was[3])
        print was[1] FS $2 FS $3 substr($4, old + 3) }' | tr '\001' '\t'
exit
}
