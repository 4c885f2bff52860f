# shellcheck shell=sh disable=SC2034,SC2154
# Hints after a fault of the command line: read by hints.sh, which has set `fault`, `dk_command` and `files`.

# What -d and -held take
NUMBERS='0 to 999999999999'

# given OPTION WORD..: whether a word is that option
given() {
    option=$1
    shift
    for word; do [ "$word" != "$option" ] || return 0; done
    return 1
}

# hint_usage WORD..: what to write instead
hint_usage() {
    text=${fault#"bedtools: "}
    case $text in
    'no or unknown command') hint_command ;;
    'unknown option: -'*) hint_option "${text#*: }" "$@" ;;
    'unknown option: '*) hint_file "${text#*: }" "$@" ;;
    'bad value: '*) hint_value "${text#*: }" "$@" ;;
    'required option missing') hint_missing "$@" ;;
    'options exclude one another') hint_pair "$@" ;;
    'standard input named twice') say 'both inputs are standard input: write one of them to a file first' ;;
    *) hint_synopsis ;;
    esac
}

# How the command is called
hint_synopsis() {
    synopsis=$(LC_ALL=C part=$dk_command awk '
        $1 == "%" { found = $2 == ENVIRON["part"] && $2 != "version"; next }
        found && !NF { exit }
        found' "$files/help.txt" | tr -s '\n ' ' ')
    if [ -n "$synopsis" ]; then say "usage: ${synopsis% }"; else say 'the commands: see dunekettle --help'; fi
}

# A command that bedtools has, or none
hint_command() {
    case $dk_command in
    sort) say 'sort is a command of bedtools; for Dunekettle: LC_ALL=C sort -k1,1 -k2,2n FILE' ;;
    annotate | bamtofastq | bed12tobed6 | bedpetobam | bedtobam | closest | cluster | coverage | expand | fisher | \
        flank | getfasta | groupby | igv | jaccard | links | makewindows | map | multicov | multiinter | nuc | \
        overlap | pairtobed | pairtopair | random | reldist | sample | shift | shuffle | slop | spacing | split | \
        summary | tag | unionbedg | window)
        advise "only bedtools has $dk_command; the drop-in lets one script call both: $(page MIGRATING.md)"
        ;;
    *)
        near=$(nearest "$dk_command" merge complement intersect subtract genomecov bamtobed maskfasta help check report)
        if [ -z "$near" ]; then hint_synopsis
        else advise "$dk_command is no command: did you mean $near? For all of them see dunekettle --help"
        fi
        ;;
    esac
}

# nearest WORD NAME..: the name that differs from the word by at most two letters that are other, missing, more or
# exchanged
nearest() {
    LC_ALL=C word=$1 names="$*" awk 'BEGIN {
        word = ENVIRON["word"]
        least = 3
        count = split(ENVIRON["names"], name, " ")
        for (at = 2; at <= count; at++) if ((far = distance(word, name[at])) < least) { least = far; found = name[at] }
        print found
    }
    function distance(one, other,  i, j, far, cost) {
        if (length(one) > 20) return 3
        for (i = 0; i <= length(one); i++) far[i, 0] = i
        for (j = 0; j <= length(other); j++) far[0, j] = j
        for (i = 1; i <= length(one); i++) for (j = 1; j <= length(other); j++) {
            cost = substr(one, i, 1) != substr(other, j, 1)
            far[i, j] = least_of(far[i - 1, j] + 1, far[i, j - 1] + 1, far[i - 1, j - 1] + cost)
            if (i > 1 && j > 1 && substr(one, i - 1, 2) == substr(other, j, 1) substr(other, j - 1, 1))
                far[i, j] = least_of(far[i, j], far[i - 2, j - 2] + 1, far[i, j])
        }
        return far[length(one), length(other)]
    }
    function least_of(a, b, c) { if (b < a) a = b; return c < a ? c : a }' < /dev/null
}

# hint_option OPTION WORD..: what to write for an option of bedtools, or how the command is called. instead.txt has the
# scripts that replace it, and the options of which they need one.
hint_option() {
    wanted=$1
    shift
    instead=$(LC_ALL=C command=$dk_command option=$wanted awk -F '\t' '
        $1 == ENVIRON["command"] && $2 == ENVIRON["option"] { print $3 "\t" $4 "\t" }' "$files/instead.txt")
    case $wanted in
    several*) lacks='-b takes one file' does='takes several' ;;
    *) lacks="$dk_command has no $wanted" does='does it' ;;
    esac
    case $instead in
    '') hint_synopsis ;;
    leave*) say "$lacks: leave it out" ;;
    "$dk_tab"*) advise "$lacks: bedtools has it, and the drop-in ($(page MIGRATING.md)) gives it such a call" ;;
    *)
        needed=${instead#*"$dk_tab"}
        hint_scripts "${instead%%"$dk_tab"*}" "${needed%"$dk_tab"}" "$@"
        ;;
    esac
}

# hint_scripts SCRIPTS NEEDED WORD..: the line of a script that takes these words, or else its name
hint_scripts() {
    scripts=$1 needed=$2
    shift 2
    if ! columns_are_made "$@"; then
        made="bedtools has it, and the drop-in ($(page MIGRATING.md)) gives it such a call"
        advise "$lacks, and no script does this: $made"
        return
    fi
    if gives_one_of "$needed" "$@"; then
        for script in $scripts; do
            ! hint_line "$(recipe "$script")" "$@" || return 0
        done
    fi
    [ -z "$needed" ] || needed=" with $(printf '%s' "$needed" | sed 's/ /, /g; s/\(.*\), /\1 or /; s/-wb/-wa -wb/')"
    scripts=$(printf '%s' "$scripts" | sed 's/ / or /g')
    advise "$lacks: $scripts ($(page RECIPES.md)) $does$needed; or bedtools, to which the drop-in gives such a call"
}

# columns_are_made WORD..: whether a script makes what -o of `merge` asks for, beside -s only the strand and a count
columns_are_made() {
    [ "$dk_command" = merge ] || return 0
    operations='' columns='' before=''
    for word; do
        case $before in -o) operations=$word ;; -c) columns=$word ;; esac
        before=$word
    done
    [ -n "$operations" ] || return 0
    if given -s "$@"; then [ "$columns/$operations" = 6,4/distinct,count ]; return; fi
    for operation in $(printf '%s' "$operations" | tr ',' ' '); do
        case $operation in count | sum | mean | min | max | collapse | distinct | count_distinct) ;; *) return 1 ;; esac
    done
}

# hint_line SCRIPT WORD..: the line that calls it, if it takes these words; some scripts don't take the option that they
# are for
hint_line() {
    script=$1
    shift
    case $script in
    */intersect-split.sh | */genomecov-split.sh | */subtract-N.sh)
        for word; do
            shift
            [ "$word" = "$wanted" ] || set -- "$@" "$word"
        done
        ;;
    */merge-s-c.sh)
        given -s "$@" || return
        for word; do
            shift
            case $word in -s | -c | 6,4 | -o | distinct,count) ;; *) set -- "$@" "$word" ;; esac
        done
        ;;
    esac
    takes_words "$script" "$@" || return
    advise "$lacks. Write: $(called "$script" "$@")"
}

# gives_one_of OPTIONS WORD..: whether one of them is given, if there are any
gives_one_of() {
    [ -n "$1" ] || return 0
    options=$1
    shift
    for one in $options; do ! given "$one" "$@" || return 0; done
    return 1
}

# takes_words SCRIPT WORD..: whether the script takes all of them, as its line of read_words says, and finds its files
takes_words() {
    known=" $(sed -n "s/^read_words '\([^']*\)'.*/\1/p" "$1" 2> /dev/null) "
    [ "$known" != '  ' ] || return
    case $1 in
    */merge-c.sh) given -c "$@" && given -o "$@" || return ;;
    */subtract-N.sh) given -f "$@" || return ;;
    esac
    given -i "$@" || given -a "$@" || given -ibam "$@" || return
    shift
    while [ $# -gt 0 ]; do
        case $known in
        *" $1: "*)
            [ $# -gt 1 ] || return
            case $1 in -i | -a | -b | -ibam) [ -f "$2" ] || return ;; esac
            shift
            ;;
        *" $1 "*) case $1 in -*) ;; *) return 1 ;; esac ;;
        *' .. '*) case $1 in -*) return 1 ;; *) [ -f "$1" ] || return ;; esac ;;
        *) return 1 ;;
        esac
        shift
    done
}

# called SCRIPT WORD..: its command line
called() {
    line=$(quoted "$1")
    shift
    for word; do line="$line $(quoted "$word")"; done
    printf '%s\n' "$line"
}

# hint_file WORD WORD..: which option a file without one lacks
hint_file() {
    [ -e "$1" ] || { hint_synopsis; return; }
    bare=$1
    shift
    case $dk_command in
    intersect | subtract) set -- -a -b "$@" ;;
    maskfasta) set -- -fi -bed "$@" ;;
    *) set -- -i -i "$@" ;;
    esac
    first=$1 second=$2
    shift 2
    if ! given "$first" "$@"; then advise "write $first $(quoted_name "$bare")"
    elif ! given "$second" "$@"; then advise "write $second $(quoted_name "$bare")"
    elif [ "$dk_command" = intersect ]; then hint_option 'several -b' "$@"
    else say "$second takes one file: several become one by LC_ALL=C sort -k1,1 -k2,2n FILE FILE"
    fi
}

# hint_value OPTION WORD..: what the option takes
hint_value() {
    case $1 in
    -d)
        case $dk_d in
        -*[!0-9]* | [!-]* | -) say "-d takes $NUMBERS, a number of bases in digits" ;;
        *)
            shift
            overlap="for features that share at least ${dk_d#-} bases"
            if [ $# = 4 ] && [ -f "$dk_i" ]; then
                advise "-d takes $NUMBERS; $overlap write: $(called "$(recipe merge-overlap.sh)" "${dk_d#-}" "$dk_i")"
            else advise "-d takes $NUMBERS; $overlap there is merge-overlap.sh ($(page RECIPES.md))"
            fi
            ;;
        esac
        ;;
    -held) say "-held takes $NUMBERS" ;;
    -f) say '-f takes a fraction from 0 to 1, with nine decimals at most, as 0.5' ;;
    -S | -strand) say "$1 takes + or -" ;;
    -mc) say '-mc takes one printable ASCII character' ;;
    *) say "$1 takes the name of a file" ;;
    esac
}

# hint_missing WORD..: the options that the command needs
hint_missing() {
    missing=''
    case $dk_command in
    complement) need -g GENOME "$@" ;;
    intersect | subtract) need -a FILE "$@"; need -b FILE "$@" ;;
    maskfasta) need -fi FASTA "$@"; need -bed BED "$@" ;;
    genomecov)
        need -g GENOME "$@"
        given -bg "$@" || given -bga "$@" ||
            missing="$missing, and -bg or -bga (for the histogram there is histogram.sh: $(page RECIPES.md))"
        ;;
    esac
    advise "$dk_command needs ${missing#, and }"
}

# need OPTION VALUE WORD..: puts an option that isn't given to `missing`
need() {
    needed="$1 $2"
    option=$1
    shift 2
    given "$option" "$@" || missing="$missing, and $needed"
}

# hint_pair WORD..: the options that exclude one another
hint_pair() {
    pair=''
    case $dk_command in
    merge) pair='-s, -S' ;;
    maskfasta) if given -soft "$@" && given -mc "$@"; then pair='-soft, -mc'; fi ;;
    intersect)
        for shape in -wo -wb -u -v -c; do ! given "$shape" "$@" || pair="$pair, $shape"; done
        pair=${pair#, }
        case $pair in -wo) pair='-wo, -wa' ;; esac
        ;;
    esac
    if [ -n "$pair" ]; then say "leave out one of $pair"; else say '-fo may not be the name of an input'; fi
}
