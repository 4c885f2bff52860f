#!/bin/bash
# shellcheck disable=SC2016,SC2154
{
# genomecov-scale.sh -i FILE -g GENOME -scale N -bg | -bga [-strand S]: numbers of 32 bits, by six digits, as in
# bedtools.
here=$(readlink -f -- "${BASH_SOURCE[0]}") || exit 2
# shellcheck source=functions.sh source-path=SCRIPTDIR
. "${here%/*}/functions.sh" || exit 2
begin "$@" || exit 2
read_words '-i: -g: -strand: -scale: -bg -bga' "$@"
all_of -i -g -scale
one_of -bg -bga
bt genomecov -i "$opt_i" -g "$opt_g" ${opt_strand:+-strand "$opt_strand"} "-bg${opt_bga:+a}" |
    awk -F'\t' -v OFS='\t' -v scale="$opt_scale" "$single"'
    { print $1, $2, $3, sprintf("%.6g", single($4 * single(scale))) }'
exit
}
