# From names of chromosomes in the first column, and a genome file, after each a line with a tab alone: the genome file
# in the order of the names, then its other chromosomes. Ends with 1 where such a line is missing: then what came was
# cut off.

BEGIN { FS = OFS = "\t" }

$0 == "\t" { parts++; next }
$0 == "" { next }
!parts { if (!($1 in named)) { named[$1]; names[++count] = $1 } next }
{
    sizes[$1] = $2
    if (!($1 in named)) others[++rest] = $1
}

END {
    if (parts != 2) exit 1
    for (at = 1; at <= count; at++) if (names[at] in sizes) print names[at], sizes[names[at]]
    for (at = 1; at <= rest; at++) print others[at], sizes[others[at]]
}
