#!/bin/bash
# shellcheck disable=SC2016,SC2154
{
# intersect-opposite.sh -a A -b B [-f F]: for intersect -S -wo, which writes the lines of B.
here=$(readlink -f -- "${BASH_SOURCE[0]}") || exit 2
# shellcheck source=functions.sh source-path=SCRIPTDIR
. "${here%/*}/functions.sh" || exit 2
begin "$@" || exit 2
read_words '-a: -b: -f:' "$@"
all_of -a -b
carry "$opt_b" | swap_strands - |
    bt intersect -s -wa -wb ${opt_f:+-f "$opt_f"} -a "$opt_a" -b - |
    awk -F'\t' -v OFS='\t' '{
        low = $2 > $(NF - 5) ? $2 : $(NF - 5)
        high = $3 < $(NF - 4) ? $3 : $(NF - 4)
        line = $NF; NF -= 7; print $0, line, high - low }' |
    tr '\001' '\t'
exit
}
