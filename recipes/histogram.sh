#!/bin/bash
# shellcheck disable=SC2016,SC2154
{
# histogram.sh -i FILE -g GENOME [-max N] [-strand S]: the histogram of genomecov. Chromosomes without a record come
# last.
here=$(readlink -f -- "${BASH_SOURCE[0]}") || exit 2
# shellcheck source=functions.sh source-path=SCRIPTDIR
. "${here%/*}/functions.sh" || exit 2
begin "$@" || exit 2
read_words '-i: -g: -max: -strand:' "$@"
all_of -i -g
bt genomecov -i "$opt_i" -g "$opt_g" ${opt_strand:+-strand "$opt_strand"} -bga |
    awk -F'\t' -v OFS='\t' -v max="${opt_max:-0}" "$single"'
    function whole(x) { return sprintf("%.0f", x) }
    function rows(x, all,  d) { for (d = 0; d <= top; d++) if ((x, d) in n)
        print x, d, whole(n[x, d]), whole(all), sprintf("%.6g", share(n[x, d], all)) }
    !($1 in size) { c[++m] = $1 } max && $4 > max { $4 = max }
    { long = $3 - $2; n[$1, $4] += long; n["genome", $4] += long; sum += long
      size[$1] = $3; if ($4 > top) top = $4 + 0; if ($4) hit[$1] }
    END { for (late = 0; late < 2; late++) for (i = 1; i <= m; i++)
    if ((c[i] in hit) != late) rows(c[i], size[c[i]]); rows("genome", sum) }'
exit
}
