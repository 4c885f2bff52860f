#!/bin/bash
# shellcheck disable=SC2016,SC2154
{
# intersect-files.sh -a A -b B1 B2 .. -u | -v | -c | -C | -wa -wb [-names N1 N2 .. -- | -filenames] [-f F] [-s]: for
# several files of -b. Without names each line has the file's number, as in bedtools. End the list of names by --.
here=$(readlink -f -- "${BASH_SOURCE[0]}") || exit 2
# shellcheck source=functions.sh source-path=SCRIPTDIR
. "${here%/*}/functions.sh" || exit 2
begin "$@" || exit 2
names=() words=() is_name=''
for word; do
    case $word in
    -names) is_name=1 ;;
    -*) is_name=''; [ "$word" = -- ] || words+=("$word") ;;
    *) if [ -n "$is_name" ]; then names+=("$word"); else words+=("$word"); fi ;;
    esac
done
read_words '-a: -b: .. -f: -s -sorted -u -v -c -C -wa -wb -filenames' "${words[@]}"
all_of -a -b
if [ -z "${opt_wa-}" ] || [ -z "${opt_wb-}" ]; then one_of -u -v -c -C; fi
rule=(${opt_f:+-f "$opt_f"} ${opt_s:+-s})
for name in u v c; do
    option=opt_$name
    if [ -n "${!option-}" ]; then
        cat -- "${files[@]}" | in_order | bt intersect -a "$opt_a" -b - "-$name" "${rule[@]}"
        exit
    fi
done
twice "$opt_a"
shape=(-wa -wb)
[ -z "${opt_C-}" ] || shape=(-c)
number=0
for file in "${files[@]}"; do
    name=${names[number]:-$((number + 1))}
    [ -z "${opt_filenames-}" ] || name=$file
    number=$((number + 1))
    case $name in *[$'\n\001']*) fail "a name with a line feed stands in no line: $name" ;; esac
    carry "$opt_a" | bt intersect -a - -b "$file" "${shape[@]}" "${rule[@]}" |
        name=$name awk -F'\t' -v OFS='\t' '{ $7 = $7 "\001" ENVIRON["name"]; print }'
done | sort -s -t "$TAB" -k 4,4n | lines
exit
}
