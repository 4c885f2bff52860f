# shellcheck shell=bash
# SPDX-License-Identifier: MIT
# Functions of the recipes, which each script reads. BEDTOOLS names the program, if it isn't dunekettle-bedtools; GENOME
# a genome file, if the chromosomes aren't in the order of their bytes. Each script is one group, which bash reads to
# its end before it runs any of it: one that was cut ends with an error, and so does one that doesn't find this file
# whole.
# shellcheck disable=SC2016,SC2034,SC2154 # `from` runs awk; options are variables that only some scripts read
TAB=$(printf '\t')

# bt COMMAND WORD..: the program, with the genome file GENOME if there is one
bt() {
    case $1 in
    merge | intersect | subtract) [ -z "${GENOME-}" ] || set -- "$1" -g "$GENOME" "${@:2}" ;;
    esac
    "${BEDTOOLS:-dunekettle-bedtools}" "$@"
}
fail() { echo "${0##*/}: $1" >&2; exit 2; }

# from FILE WORD..: runs the words, which read the file as standard input: its name may be one that a tool takes for an
# option, or awk, as `a=b.bed`, for an assignment
from() {
    local file=$1
    shift
    if [ "$file" = - ]; then "$@"; else "$@" < "$file"; fi
}

# is_input NAME: whether it is a name of standard input, which in a pipe is another one
is_input() { case $1 in - | /dev/stdin | /dev/fd/0 | /proc/self/fd/0) ;; *) return 1 ;; esac; }

# twice FILE: fails unless it can be read twice, as no pipe can: records would be lost
twice() {
    if is_input "$1" || [ ! -f "$1" ]; then fail "$1 is read twice, and is no file: write it to one"; fi
}

# A folder of this run, which is removed at its end; awk finds it in ENVIRON, where a backslash is one. It has its name
# before it is made: mktemp may be killed in between. What still runs after a signal may write into it once more.
work() {
    export folder=${TMPDIR:-/tmp}/dunekettle-$$-$RANDOM$RANDOM
    trap 'rm -rf -- "$folder" 2> /dev/null || { sleep 0.2; rm -rf -- "$folder"; }' EXIT
    mkdir -m 700 -- "$folder" || { trap - EXIT; exit 1; }
}

# read_words KNOWN WORD..: the options of a command line, as variables opt_X; those in KNOWN that end with : have a
# value. `files` has the files of -b, which are several only if KNOWN has .. A fraction is a number, as awk would
# compare a text.
read_words() {
    local known=" $1 " word
    shift
    files=()
    while [ $# -gt 0 ]; do
        word=$1
        shift
        case $word:$known in
        -*:*" $word: "*) [ $# -gt 0 ] || fail "$word needs a value"
            ! is_input "$1" || set -- - "${@:2}"
            [[ ! $word =~ ^-[fF]$ || $1 =~ ^([0-9]+\.?[0-9]*|\.[0-9]+)$ ]] || fail "$word is no number: $1"
            declare -g "opt_${word#-}=$1"
            [ "$word" != -b ] || files+=("$1")
            shift ;;
        -*:*" $word "*) declare -g "opt_${word#-}=1" ;;
        -*) fail "unknown option: $word" ;;
        *' .. '*) [ ${#files[@]} -gt 0 ] || fail "unknown word: $word"
            ! is_input "$word" || word=-
            files+=("$word") ;;
        *) fail "unknown word: $word" ;;
        esac
    done
}

# one_of WORD..: fails unless exactly one of these options is given: without it bedtools writes something else
one_of() {
    local word name given=0
    for word; do
        name=opt_${word#-}
        [ -z "${!name-}" ] || given=$((given + 1))
    done
    [ "$given" = 1 ] || fail "give one of $*"
}

# all_of WORD..: fails unless each of these options is given
all_of() {
    local word name
    for word; do
        name=opt_${word#-}
        [ -n "${!name-}" ] || fail "give $word"
    done
}

# records FILE: its records, without header lines, blank lines and CR
records() {
    from "$1" awk -F'\t' '{ sub(/\r$/, "") }
        NF && !/^(#|(track|browser)([ \t]|$))/'
}

# carry FILE: each record as six columns, with its number as the name, and its line as a seventh.
# lines: the lines again
carry() {
    from "$1" awk -F'\t' -v OFS='\t' '{ sub(/\r$/, ""); line = $0
        gsub(/\t/, "\001", line) }
        NF && !/^(#|(track|browser)([ \t]|$))/ {
            print $1, $2, $3, NR, 0, $6, line }'
}
lines() { cut -f 7- | tr '\001' '\t'; }

# by_genome FILE: standard input in the order of a genome file
by_genome() {
    ! is_input "$1" || fail 'standard input is what is sorted'
    genome=$1 awk -F'\t' 'BEGIN {
        while ((got = (getline < ENVIRON["genome"])) > 0) rank[$1] = ++n
        if (got < 0) { print "no genome file: " ENVIRON["genome"] > "/dev/stderr"; exit 2 } }
        { print rank[$1] + 0 "\t" $0 }' |
        sort -s -t "$TAB" -k1,1n -k3,3n | cut -f 2-
}

# in_order: standard input in the order of GENOME, or else of the names' bytes
in_order() {
    if [ -n "${GENOME-}" ]; then by_genome "$GENOME"; else sort -s -k1,1 -k2,2n; fi
}

# swap_strands FILE: the records that have a strand, with the other one
swap_strands() {
    from "$1" awk -F'\t' -v OFS='\t' '{ sub(/\r$/, "") }
        $6 ~ /^[+-]$/ { $6 = $6 == "+" ? "-" : "+"; print }'
}

# next_line(NAME) in awk: whether `found` has a further line of a file in the folder of this run. One that can't be read
# ends all: its records aren't none.
next_line='function next_line(name,  got) {
    got = (getline found < (ENVIRON["folder"] "/" name))
    if (got < 0) { print "unreadable file of this run: " name > "/dev/stderr"; exit 2 }
    return got }'

# Numbers of 32 bits, as bedtools computes them.
single='function single(x,  c) { c = x * 536870913; return c - (c - x) }
    function share(x, y) { return single(single(x) / single(y)) }'

# bam_genome FILE: the chromosomes of a BAM file as a genome file
bam_genome() {
    from "$1" samtools view -H - | awk -F'\t' '/^@SQ/ {
        for (i = 2; i <= NF; i++) {
            if ($i ~ /^SN:/) name = substr($i, 4)
            if ($i ~ /^LN:/) size = substr($i, 4) }
        print name FS size }'
}
exchange_d_n() { awk -F'\t' -v OFS='\t' '{ gsub(/N/, "n", $6)
    gsub(/D/, "N", $6); gsub(/n/, "D", $6); print }'; }
n_for_d() { awk -F'\t' -v OFS='\t' '{ gsub(/D/, "N", $6); print }'; }

# begin WORD..: what each script does first; it stands last here, so that it is missing if this file was cut
begin() {
    set -euo pipefail
    export LC_ALL=C
    # sed and awk read some of these programs otherwise with it.
    unset POSIXLY_CORRECT "${!opt_@}"
    # Without words a script shows how it is called: its own head.
    if [ $# = 0 ] || [ "$1" = --help ]; then
        sed -n '4,12{/^# /!q; s/^# //p}' < "$here" >&2
        exit 2
    fi
    [ -z "${GENOME-}" ] || twice "$GENOME"
    # Where no folder of PATH has the program, it is that of the installation to which these scripts belong.
    case ${BEDTOOLS:+given}$here in
    /*/share/dunekettle/recipes/*)
        command -v dunekettle-bedtools > /dev/null ||
            BEDTOOLS=${here%/share/dunekettle/recipes/*}/bin/dunekettle-bedtools
        ;;
    esac
}
