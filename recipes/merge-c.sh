#!/bin/bash
# shellcheck disable=SC2016,SC2154
{
# merge-c.sh -i FILE -c N,N.. -o OPERATION,.. [-d N] [-delim TEXT] [-prec N]: columns of merged features. Operations:
# count, sum, mean, min, max, collapse, distinct, count_distinct; distinct values come in the order of their bytes.
here=$(readlink -f -- "${BASH_SOURCE[0]}") || exit 2
# shellcheck source=functions.sh source-path=SCRIPTDIR
. "${here%/*}/functions.sh" || exit 2
begin "$@" || exit 2
read_words '-i: -c: -o: -d: -delim: -prec:' "$@"
all_of -i -c -o
twice "$opt_i"
# An operation that isn't one ends it before anything is run, whose messages would come too.
for operation in ${opt_o//,/ }; do
    [[ $operation =~ ^(count|sum|mean|min|max|collapse|distinct|count_distinct)$ ]] || fail "not supported: $operation"
done
bt merge -i "$opt_i" ${opt_d:+-d "$opt_d"} | bt intersect -a - -b "$opt_i" -wa -wb |
    delim=${opt_delim:-,} awk -F'\t' -v columns="$opt_c" -v operations="$opt_o" -v prec="${opt_prec:-10}" '
    BEGIN { delim = ENVIRON["delim"]; wanted = split(columns, column, ","); given = split(operations, operation, ",")
        for (i = given + 1; i <= wanted; i++) operation[i] = operation[given]
        for (i = wanted + 1; i <= given; i++) column[i] = column[wanted]
        if (given > wanted) wanted = given
        for (i = 1; i <= wanted; i++) is_number[i] = operation[i] ~ /^(sum|mean|min|max)$/ }
    function number(x) { return sprintf("%." prec "g", x) }
    function value(i) {
        if (operation[i] == "count") return n
        if (operation[i] == "sum") return number(sum[i])
        if (operation[i] == "mean") return number(sum[i] / n)
        if (operation[i] == "min") return number(least[i])
        if (operation[i] == "max") return number(most[i])
        if (operation[i] == "count_distinct") return kinds[i]
        return operation[i] == "distinct" ? joined(i) : text[i] }
    # A value that is new is put where its bytes belong.
    function put(i, x,  at) {
        if ((i, x) in seen) return
        seen[i, x]
        for (at = kinds[i]++; at > 0 && kept[i, at] "" > x ""; at--) kept[i, at + 1] = kept[i, at]
        kept[i, at + 1] = x }
    function joined(i,  at, made) {
        for (at = 1; at <= kinds[i]; at++) made = made (at > 1 ? delim : "") kept[i, at]
        return made }
    function line(  i, out) { if (!n) return
        out = run; for (i = 1; i <= wanted; i++) out = out "\t" value(i); print out }
    function begin(  i) {
        n = 0; split("", seen)
        for (i = 1; i <= wanted; i++) { sum[i] = kinds[i] = 0; text[i] = "" } }
    $1 FS $2 FS $3 != run { line(); run = $1 FS $2 FS $3; begin() }
    { n++; for (i = 1; i <= wanted; i++) {
        if (column[i] + 3 > NF) { print "merge-c.sh: no column " column[i] ": " $0 > "/dev/stderr"; failed = 1; exit 1 }
        x = $(column[i] + 3)
        if (is_number[i]) {
            if (x + 0 != x) { print "merge-c.sh: not a number: " x > "/dev/stderr"; failed = 1; exit 1 }
            sum[i] += x
            if (n == 1 || x + 0 < least[i]) least[i] = x + 0
            if (n == 1 || x + 0 > most[i]) most[i] = x + 0 }
        else if (operation[i] ~ /distinct/) put(i, x)
        else if (operation[i] == "collapse") text[i] = text[i] (n > 1 ? delim : "") x } }
    END { if (!failed) line() }'
exit
}
