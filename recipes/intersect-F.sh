#!/bin/bash
# shellcheck disable=SC2016,SC2154
{
# intersect-F.sh -a A -b B -F F [-f F] [-e] [-s] [-wo | -wa [-wb] | -u | -c | -v]: for -F, alone or beside -f, and for
# -e. awk compares about sixteen digits, bedtools seven.
here=$(readlink -f -- "${BASH_SOURCE[0]}") || exit 2
# shellcheck source=functions.sh source-path=SCRIPTDIR
. "${here%/*}/functions.sh" || exit 2
begin "$@" || exit 2
read_words '-a: -b: -f: -F: -e -s -sorted -wo -wa -wb -u -c -v' "$@"
all_of -a -b
[ -n "${opt_F-}" ] || fail '-F is missing'
[ -z "${opt_u-}${opt_c-}${opt_v-}" ] || one_of -wo -u -c -v
[ -z "${opt_wo-}" ] || one_of -wo -wa -wb
[ -z "${opt_wb-}" ] || one_of -wa -u -c -v
work
rule=(${opt_s:+-s})
[ -n "${opt_e-}" ] || rule+=(${opt_f:+-f "$opt_f"})
shape=parts
for name in wo wa wb u c v; do
    option=opt_$name
    [ -z "${!option-}" ] || shape=$name
done
# Of the pairs on standard input those that hit.
enough() {
    awk -F'\t' -v first="${opt_e:+${opt_f:-0}}" -v second="$opt_F" '
        $NF / ($10 - $9) >= second || (first != "" && $NF / ($3 - $2) >= first)'
}
case $shape in
u | c | v)
    records "$opt_a" > "$folder/a.bed"
    from "$folder/a.bed" awk -F'\t' -v OFS='\t' '{ print $1, $2, $3, NR, 0, $6, 0 }' |
        bt intersect -a - -b "$opt_b" "${rule[@]}" -wo | enough | cut -f 4 > "$folder/hits"
    from "$folder/a.bed" awk -v shape=$shape "$next_line"'
        BEGIN { while (next_line("hits")) hits[found]++ }
        shape == "c" { print $0 "\t" hits[NR] + 0; next }
        (NR in hits) == (shape == "u")' ;;
*)
    carry "$opt_a" | bt intersect -a - -b "$opt_b" "${rule[@]}" -wo | enough |
        case $shape in
        wo) lines ;;
        wa) cut -f 1-7 | lines ;;
        wb) lines | sed 's/\t[^\t]*$//' ;;
        parts) awk -F'\t' -v OFS='\t' '{
            split($7, was, "\001")
            rest = substr($7, length(was[1] was[2] was[3]) + 3)
            print $1, ($2 > $9 ? $2 : $9), ($3 < $10 ? $3 : $10) rest }' |
            tr '\001' '\t' ;;
        esac ;;
esac
exit
}
