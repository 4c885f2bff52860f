# What `dunekettle report` says of the file that DUNEKETTLE_TELL names: how many calls there were, how many of them
# Dunekettle took, and why it didn't take the others.
#
#     LC_ALL=C awk -f report.awk < FILE
#
# Ends with 1 if the file has no call. A reason is counted without the names of files and without numbers.

BEGIN {
    # What comes right after the name of a file in a reason
    SAID = " (has (a|lines|records|alignments|odd) |goes past |begins (as|out of) |isn't (SAM|plain) |can't be read$)" \
        "| is (VCF,|SAM text|a long gzip|odd,|no (file|stream|BAM))"
    count = split("merge complement intersect subtract genomecov bamtobed maskfasta", commands, " ")
    for (at = 1; at <= count; at++) is_ours[commands[at]]
}

/^dunekettle: .* takes [^ :]*: / {
    match($0, / takes [^ :]*: /)
    taker = substr($0, 13, RSTART - 13)
    command = substr($0, RSTART + 7, RLENGTH - 9)
    all++
    if (!(command in is_ours)) next
    calls[command]++
    total++
    if (taker == "Dunekettle") { taken[command]++; total_taken++ }
    else reasons[command ": " plain(substr($0, RSTART + RLENGTH))]++
}

END {
    if (!all) exit 1
    printf "%s, of which %d of the seven commands; ", in_words(all, "call"), total
    printf "Dunekettle took %s\n", share(total_taken, total)
    for (at = 1; at <= count; at++)
        if ((command = commands[at]) in calls) printf "  %-12s%s\n", command, share(taken[command], calls[command])
    if (total > total_taken) print "why bedtools took the others:"
    while ((reason = most_frequent()) != "") {
        printf "  %6d  %s\n", reasons[reason], reason
        delete reasons[reason]
    }
}

# The reason that is left with the most calls, the first by its bytes among several
function most_frequent(  reason, best) {
    best = ""
    for (reason in reasons)
        if (best == "" || reasons[reason] > reasons[best] ||
            reasons[reason] == reasons[best] && reason < best) best = reason
    return best
}

# A reason without what it says of one file
function plain(text) {
    sub(/^bedtools [a-z]+: .*:[0-9]+: /, "", text)
    sub(/^bedtools [a-z]+: .*: cannot be opened$/, "an input cannot be opened", text)
    sub(/^bedtools: /, "", text)
    # The name of a file; but not what stands before an option.
    if (text !~ /: -/) sub(/^.*: /, "", text)
    if (match(text, SAID)) text = "FILE" substr(text, RSTART)
    gsub(/[^ ]*[.\/][^ ]*[^ .:;,]/, "FILE", text)
    return text
}

function in_words(number, word) { return number " " word (number == 1 ? "" : "s") }

function share(part, whole) {
    return whole ? sprintf("%d of %d (%.0f percent)", part, whole, 100 * part / whole) : "none"
}
