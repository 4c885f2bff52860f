# The -d of genomecov, from its -bga: a line for each base. With -dz, as `value`, bases count from zero, and those of
# depth zero are left out. bedtools writes six digits of a depth.

BEGIN { FS = "\t"; first = value == "-d" }

value == "-dz" && $4 == 0 { next }

{
    start = $1 "\t"
    end = "\t" ($4 < 1000000 ? $4 : sprintf("%g", single($4)))
    for (at = $2 + first; at < $3 + first; at++) print start at end
}
