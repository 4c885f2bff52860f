# The histogram of genomecov, from its -bga: for each chromosome and for all of them the bases of each depth, where
# `value` and what is deeper are one. bedtools counts bases in 32 bits, and divides floats.

BEGIN { FS = OFS = "\t" }

function put_row(name, depth, count, bases) {
    count -= 4294967296 * int(count / 4294967296)
    printf "%s\t%d\t%.0f\t%.0f\t%g\n", name, depth, count, bases, single(single(count) / single(bases))
}

function put_chromosome(  depth) {
    for (depth = 0; depth <= deepest; depth++) {
        if (!(depth in counts)) continue
        put_row(chromosome, depth, counts[depth], size)
        all_counts[depth] += counts[depth]
    }
    if (deepest > deepest_of_all) deepest_of_all = deepest
    bases += size
    deepest = 0
    split("", counts)
}

($1 "") != chromosome {
    if (chromosome != "") put_chromosome()
    chromosome = $1 ""
}

{
    depth = $4 > value + 0 ? value + 0 : $4 + 0
    counts[depth] += $3 - $2
    if (depth > deepest) deepest = depth
    size = $3
}

END {
    if (chromosome == "") exit
    put_chromosome()
    for (depth = 0; depth <= deepest_of_all; depth++)
        if (depth in all_counts) put_row("genome", depth, all_counts[depth], bases)
}
