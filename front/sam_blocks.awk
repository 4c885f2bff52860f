# The blocks of alignments of SAM without header lines, as genomecov of bedtools counts them, with the number of the
# chromosome's place in the file as a fourth column. D ends a block, and N does with `gaps`. The first block of each
# read is written; later ones go to the command `sorter`, and the names of the chromosomes to the file `names`. Reads of
# the other strand than `strand`, if it is given, are left out. Ends with 1 where bedtools may do something else, and
# after `most` bytes.

BEGIN { FS = OFS = "\t"; place = 100000 }

strand != "" && (int($2 / 16) % 2 ? "-" : "+") != strand { next }

$3 == "*" || $4 < 1 { exit 1 }

($3 "") != chromosome {
    print chromosome = $3 "" > names
    place++
}

{ bytes += 40; if (bytes > most) exit 1 }

$6 ~ /^[0-9]+M$/ { print $3, $4 - 1, $4 - 1 + $6, place; next }

{
    cigar = $6
    start = $4 - 1
    bases = has_block = 0
    while (match(cigar, /^[0-9]+[MIDNSHP=X]/)) {
        operation = substr(cigar, RLENGTH, 1)
        count = substr(cigar, 1, RLENGTH - 1) + 0
        cigar = substr(cigar, RLENGTH + 1)
        if (operation ~ /[M=X]/ || operation == "N" && !gaps) bases += count
        else if (operation ~ /[DN]/) {
            put_block()
            start += bases + count
            bases = 0
        }
    }
    if (cigar != "") exit 1
    put_block()
}

# A block without a base changes nothing, unless it is at the first base: then bedtools writes a depth without end
function put_block() {
    if (!bases) { if (!start) exit 1 }
    else if (has_block) {
        bytes += 40
        print $3, start, start + bases, place | sorter
        is_sorted = 1
    } else print $3, start, start + bases, place
    has_block = 1
}

# What the sorter lost would be lost from the depths
END { if (is_sorted && close(sorter) != 0) exit 1 }
