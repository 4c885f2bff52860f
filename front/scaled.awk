# The -bga of genomecov with each depth times a float, of which bedtools writes six digits: `value` is that, or -bg and
# that, which leaves out depth 0.

BEGIN { FS = OFS = "\t"; scale = single(substr(value, 1 + index(value, " ")) + 0) }

value ~ /^-bg / && $4 == 0 { next }

{
    if (!($4 in made)) made[$4] = sprintf("%g", single(single($4) * scale))
    print $1, $2, $3, made[$4]
}
