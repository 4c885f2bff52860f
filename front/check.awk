# What `dunekettle check` says of a text file on standard input, and of what kind it is.
#
#     LC_ALL=C awk -f check.awk -v only=kind < FILE
#     LC_ALL=C file=.. kind=.. fault=.. pipe=.. genome=.. json=.. awk -f check.awk < FILE
#
# `fault` is the line that the program reports of it, or empty; `pipe` what makes BED of it, or empty.

BEGIN {
    FS = "\t"
    kind = ENVIRON["kind"]
    for (code = 1; code < 256; code++) if (code < 32 || code > 126) code_of[sprintf("%c", code)] = code
    # A letter of UTF-8 that isn't one of ASCII
    UTF8 = "^([\302-\337]|\340[\240-\277]|[\341-\354\356\357][\200-\277]|\355[\200-\237]" \
        "|(\360[\220-\277]|[\361-\363][\200-\277]|\364[\200-\217])[\200-\277])[\200-\277]"
}

only == "kind" { name_kind(); next }

{ sub(/\r$/, "") ? crlf++ : 0 }
/^[ \t]*$/ { blank++; next }
/^#/ || /^(track|browser)([ \t]|$)/ { headers++; next }
kind == "SAM" && /^@/ { headers++; next }
kind == "FASTA" { if (/^>/) records++; next }
{
    records++
    if (!least || NF < least) least = NF
    if (NF > most) most = NF
    if (NF >= 6 && $6 != "+" && $6 != "-") strandless++
    if ($3 + 0 <= $2 + 0) empty++
    if ($1 != chromosome) begin_chromosome($1)
    else if ($2 + 0 < start) is_unsorted = 1
    start = $2 + 0
}

END {
    if (only == "kind") { if (!known) print "empty"; exit }
    order = is_unsorted ? "none" : !against_bytes ? "bytes" : !against_numbers ? "numbers" : "together"
    if (ENVIRON["genome"] != "" && ENVIRON["fault"] == "") order = "genome"
    if (ENVIRON["json"]) report_json(); else report_words()
}

# What the first line that says it is
function name_kind() {
    if (NR == 1 && /^##fileformat=VCF|^#CHROM\tPOS/) known = "VCF"
    else if (NR == 1 && /^##gff-version/) known = "GFF"
    else if (NR == 1 && /\r./) known = "CR"
    else if (/^>/) known = "FASTA"
    else if (/^@(HD|SQ|RG|PG|CO)\t/) known = "SAM"
    else if (/^#/ || /^(track|browser)([ \t\r]|$)/ || /^[ \t\r]*$/) return
    else if (NF >= 11 && is_number($2) && is_number($4) && $6 ~ /^(\*|([0-9]+[MIDNSHPX=])+)$/) known = "SAM"
    else if (NF >= 8 && is_number($4) && is_number($5) && !(is_number($2) && is_number($3))) known = "GFF"
    else if (NF == 5 && is_number($2) && is_number($3) && is_number($4) && ($5 - $4 == 1 || $5 - $4 == 2))
        known = "genome file"
    else if (NF >= 3 && is_number($2)) known = "BED"
    else if (NF == 2 && is_number($2)) known = "genome file"
    else if (NF < 3 && /^[^ ]+ +[0-9]+ +[0-9]+/) known = "spaces"
    else if (NF >= 3 && NR == 1 && ($2 $3) !~ /[0-9]/) known = "names of columns"
    else known = "text"
    print known
    exit
}

function is_number(text) { sub(/\r$/, "", text); return text ~ /^[0-9]+$/ }

# A chromosome that comes after another: whether it may by the order of the bytes, and by that of the numbers
function begin_chromosome(name) {
    if (name in seen) is_unsorted = 1
    else { seen[name]; fresh = 1 }
    if (count && (name "") < (chromosome "")) against_bytes = 1
    if (count && number_of(name) < number_of(chromosome)) against_numbers = 1
    count += fresh
    fresh = 0
    chromosome = name
}

# The place of chr1, chr2, .., chr10, .. chrX, chrY, chrM in the natural order
function number_of(name) {
    sub(/^[Cc][Hh][Rr]/, "", name)
    if (name ~ /^[0-9]+$/) return name + 0
    return name == "X" ? 1001 : name == "Y" ? 1002 : name ~ /^M/ ? 1003 : 1004
}

function order_in_words() {
    if (!records) return "no records"
    if (order == "none") return "not sorted"
    if (order == "genome") return "sorted, by the genome file"
    if (order == "bytes") return "sorted, by the bytes of the names"
    if (order == "numbers") return "sorted, chromosomes by their numbers"
    return "starts sorted, chromosomes in an order of their own"
}

function add(text) { line = line (line == "" ? "" : "; ") text }

# A number with its noun, and what comes after it
function counted(number, noun, rest) { return number " " noun (number == 1 ? "" : "s") rest }

function report_words() {
    add(kind)
    if (kind == "BED" && records) {
        add(counted(records, "record", " on " counted(count, "chromosome")))
        add(least == most ? least " columns" : least " to " most " columns")
        add(order_in_words())
    } else if (records) add(counted(records, kind == "FASTA" ? "sequence" : "record"))
    if (headers) add(counted(headers, "header line"))
    if (blank) add(counted(blank, "blank line"))
    if (crlf) add(counted(crlf, "line", " with CR LF"))
    if (strandless && kind == "BED") add(counted(strandless, "record", " without a strand"))
    if (empty && kind == "BED") add(counted(empty, "record", " without a base"))
    print clean(ENVIRON["file"]) (line == "" ? ":" : ": " line)
    if (ENVIRON["fault"] != "") print "  can't be taken: " clean(ENVIRON["fault"])
    if (ENVIRON["pipe"] != "") print "  " clean(ENVIRON["pipe"])
    if (ENVIRON["fault"] != "" && ENVIRON["genome"] == "" && (order == "numbers" || order == "together"))
        print "  or keep this order: give the commands a genome file in it, by -g"
}

# A text in one line, without bytes that change a terminal
function clean(text) { gsub(/[\001-\037\177]/, "?", text); return text }

function report_json() {
    printf "{\"file\": %s, \"kind\": %s, \"taken\": %s", quoted(ENVIRON["file"]), or_null(kind),
        ENVIRON["fault"] == "" ? "true" : "false"
    printf ", \"fault\": %s, \"pipe\": %s", or_null(ENVIRON["fault"]), or_null(ENVIRON["pipe"])
    printf ", \"order\": %s, \"records\": %d", kind == "BED" && records ? quoted(order) : "null", records
    printf ", \"chromosomes\": %d, \"columns\": [%d, %d]", count, least, most
    printf ", \"header_lines\": %d, \"blank_lines\": %d, \"cr_lf\": %d", headers, blank, crlf
    printf ", \"without_strand\": %d, \"without_base\": %d}", strandless, empty
}

function or_null(text) { return text == "" ? "null" : quoted(text) }

# A text of JSON: what is UTF-8 stays as it is, and another byte becomes the letter of its number
function quoted(text,  letter, made) {
    while (text != "") {
        letter = substr(text, 1, 1)
        if (letter in code_of && match(text, UTF8)) letter = substr(text, 1, RLENGTH)
        text = substr(text, length(letter) + 1)
        if (letter == "\"" || letter == "\\") letter = "\\" letter
        else if (letter in code_of) letter = sprintf("\\u%04x", code_of[letter])
        made = made letter
    }
    return "\"" made "\""
}
