#!/bin/bash
# shellcheck disable=SC2016,SC2154
{
# genomecov-ends.sh -i FILE -g GENOME -5 | -3 -bg | -bga: counts the first or the last base of each feature, by its
# strand.
here=$(readlink -f -- "${BASH_SOURCE[0]}") || exit 2
# shellcheck source=functions.sh source-path=SCRIPTDIR
. "${here%/*}/functions.sh" || exit 2
begin "$@" || exit 2
read_words '-i: -g: -5 -3 -bg -bga' "$@"
all_of -i -g
one_of -5 -3
one_of -bg -bga
twice "$opt_g"
records "$opt_i" | awk -F'\t' -v OFS='\t' -v is_3="${opt_3:-0}" '{
    p = is_3 ? ($6 == "-" ? $2 : $3 - 1) : ($6 == "+" ? $2 : $3 - 1)
    print $1, p, p + 1, ".", 0, $6 }' | by_genome "$opt_g" |
    bt genomecov -g "$opt_g" "-bg${opt_bga:+a}"
exit
}
