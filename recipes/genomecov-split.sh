#!/bin/bash
# shellcheck disable=SC2016,SC2154
{
# genomecov-split.sh -i FILE -g GENOME -bg | -bga [-strand S]: counts the blocks of BED12 alone.
here=$(readlink -f -- "${BASH_SOURCE[0]}") || exit 2
# shellcheck source=functions.sh source-path=SCRIPTDIR
. "${here%/*}/functions.sh" || exit 2
begin "$@" || exit 2
read_words '-i: -g: -strand: -bg -bga' "$@"
all_of -i -g
one_of -bg -bga
twice "$opt_g"
records "$opt_i" | awk -F'\t' -v OFS='\t' '
    NF < 12 { print $1, $2, $3, ".", 0, $6; next }
    { n = split($11, size, ","); split($12, from, ",")
      for (i = 1; i <= n; i++) if (size[i]) print $1, $2 + from[i],
          $2 + from[i] + size[i], ".", 0, $6 }' | by_genome "$opt_g" |
    bt genomecov -g "$opt_g" "-bg${opt_bga:+a}" ${opt_strand:+-strand "$opt_strand"}
exit
}
