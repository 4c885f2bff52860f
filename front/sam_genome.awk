# The chromosomes of the header lines of SAM, as a genome file.

BEGIN { FS = "\t" }

/^@SQ/ {
    for (at = 2; at <= NF; at++) parts[substr($at, 1, 3)] = substr($at, 4)
    print parts["SN:"] "\t" parts["LN:"]
}
