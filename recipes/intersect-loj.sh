#!/bin/bash
# shellcheck disable=SC2016,SC2154
{
# intersect-loj.sh -a A -b B -loj | -wao [-f F] [-r] [-s]: also the records without a hit. Columns of a missing record
# of B go by the number of its columns; twelve are taken for BED12. Give -plain if yours aren't that.
here=$(readlink -f -- "${BASH_SOURCE[0]}") || exit 2
# shellcheck source=functions.sh source-path=SCRIPTDIR
. "${here%/*}/functions.sh" || exit 2
begin "$@" || exit 2
read_words '-a: -b: -f: -r -s -sorted -loj -wao -plain' "$@"
all_of -a -b
one_of -loj -wao
work
records "$opt_b" > "$folder/b.bed"
none=$(from "$folder/b.bed" awk -F'\t' -v plain="${opt_plain-}" 'NR == 1 { n = NF } NF != n { n = 0; exit }
    END { if (!n) exit 1
        printf ".\t-1\t-1"; for (i = 4; i <= n; i++) printf "\t%s",
            i == 5 && (n < 7 || n == 12 && !plain) ? -1 : "." }') ||
    fail 'the records of -b have different numbers of columns, or there are none'
carry "$opt_a" > "$folder/a.bed"
rule=(${opt_f:+-f "$opt_f"} ${opt_r:+-r} ${opt_s:+-s})
shape=(-wo) end="$TAB"0
[ -n "${opt_wao-}" ] || shape=(-wa -wb) end=
{ bt intersect -a "$folder/a.bed" -b "$folder/b.bed" "${shape[@]}" "${rule[@]}"
  bt intersect -a "$folder/a.bed" -b "$folder/b.bed" -v "${rule[@]}" |
      awk -v none="$none$end" '{ print $0 "\t" none }'
} | sort -s -t "$TAB" -k 4,4n | lines
exit
}
