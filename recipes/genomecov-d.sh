#!/bin/bash
# shellcheck disable=SC2016,SC2154
{
# genomecov-d.sh -i FILE -g GENOME -d | -dz [-strand S]: a line for each base, from 1, or from 0 without depth 0.
here=$(readlink -f -- "${BASH_SOURCE[0]}") || exit 2
# shellcheck source=functions.sh source-path=SCRIPTDIR
. "${here%/*}/functions.sh" || exit 2
begin "$@" || exit 2
read_words '-i: -g: -strand: -d -dz' "$@"
all_of -i -g
one_of -d -dz
shape=-bga first=1
[ -z "${opt_dz-}" ] || shape=-bg first=0
bt genomecov -i "$opt_i" -g "$opt_g" ${opt_strand:+-strand "$opt_strand"} $shape |
    awk -F'\t' -v first=$first '{ for (i = $2 + first; i < $3 + first; i++) printf "%s\t%.0f\t%s\n", $1, i, $4 }'
exit
}
