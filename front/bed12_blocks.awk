# The blocks of a file of BED12, with the number of the chromosome's place in the file as a fourth column; the names of
# the chromosomes go to the file `names`. Records of the other strand than `strand`, if it is given, are left out. Ends
# with 1 at a line that isn't plain BED12.

BEGIN { FS = OFS = "\t"; place = 100000 }

/^#/ { next }

NF != 12 || /\r/ || ($2 $3 $7 $8) !~ /^[0-9]+$/ || $2 == "" || $3 == "" || $7 == "" || $8 == "" { exit 1 }
$2 + 0 >= $3 + 0 { exit 1 }
$10 !~ /^[1-9][0-9]*$/ || $11 !~ /^([1-9][0-9]*,)*[1-9][0-9]*,?$/ || $12 !~ /^([0-9]+,)*[0-9]+,?$/ { exit 1 }

strand != "" && $6 != strand {
    if ($6 != "+" && $6 != "-") exit 1
    next
}

($1 "") != chromosome {
    print chromosome = $1 "" > names
    place++
}

{
    count = split($11, lengths, ",")
    if (lengths[count] == "") count--
    starts_count = split($12, starts, ",")
    if (starts[starts_count] == "") starts_count--
    if (count != $10 || starts_count != $10) exit 1
    for (at = 1; at <= count; at++) print $1, $2 + starts[at], $2 + starts[at] + lengths[at], place
}
