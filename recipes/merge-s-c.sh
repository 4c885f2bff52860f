#!/bin/bash
# shellcheck disable=SC2016,SC2154
{
# merge-s-c.sh -i FILE [-d N]: for merge -s -c 6,4 -o distinct,count: the strand, and how many features a run has.
here=$(readlink -f -- "${BASH_SOURCE[0]}") || exit 2
# shellcheck source=functions.sh source-path=SCRIPTDIR
. "${here%/*}/functions.sh" || exit 2
begin "$@" || exit 2
read_words '-i: -d:' "$@"
all_of -i
work
carry "$opt_i" | cut -f 1-6 > "$folder/numbered.bed"
for strand in + -; do
    bt merge -i "$folder/numbered.bed" -S $strand ${opt_d:+-d "$opt_d"} |
        awk -v strand=$strand '{ print $0 "\t.\t0\t" strand }' |
        bt intersect -s -wa -wb -a - -b "$folder/numbered.bed" |
        awk -F'\t' '$1 FS $2 == run { n++; next } { if (n) print line FS n
            run = $1 FS $2; line = $10 FS $1 FS $2 FS $3 FS $6; n = 1 }
            END { if (n) print line FS n }'
done | sort -n | cut -f 2-
exit
}
