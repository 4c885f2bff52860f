#!/bin/bash
# Tries what `make install`, `make dist` and `make deb` make, in a folder of its own: the program, its front and the
# drop-in run from there, the manual pages and completions have its name, each link of the pages leads somewhere, the
# checksums are right, and the Debian package installs beside another bedtools and goes without a trace. One commit
# gives one package, whatever the umask, the file system and the variables are; installing beside calls breaks none; and
# the installed scripts are tried by tests/recipes/safe.py, shellcheck and lintian. What needs a shell or a program that
# isn't here is passed over with a word.
#
#     tests/packages/check.sh
set -euo pipefail

cd "$(dirname "$0")/../.."
folder=$(mktemp -d)
trap 'rm -rf "$folder"' EXIT
cases=0 wrong=0

# expect WHAT WANTED FOUND: one case
expect() {
    cases=$((cases + 1))
    [ "$2" = "$3" ] || { wrong=$((wrong + 1)); printf '%s\n  wanted %s\n  found  %s\n' "$1" "$2" "$3"; }
}
has() { command -v "$1" > /dev/null || { echo "no $1: passed over"; return 1; }; }
records() { printf 'chr1\t2\t6\nchr1\t4\t9\n'; }

# The links of the pages below a folder that lead nowhere there. A heading that one names isn't looked at.
lost_links() {
    find "$1" -name '*.md' | while IFS= read -r page; do
        { grep -v '^    ' "$page" || true; } | { grep -o '\][(][^) ]*[)]' || true; } | sed 's/^](//; s/)$//; s/#.*//' |
            while IFS= read -r target; do
                case $target in '' | *://*) ;; *) [ -e "$(dirname "$page")/$target" ] || echo "$page: $target" ;; esac
            done
    done
}

# The first words of who took a call of merge with the drop-in in a folder of an installation.
who_takes() { DUNEKETTLE_TELL=1 "$1/lib/dunekettle/bin/bedtools" merge -i "$2" 2>&1 > /dev/null | cut -d : -f 1,2; }

# The status of a call of the drop-in whose reader goes away.
without_reader() {
    set +e
    "$1/lib/dunekettle/bin/bedtools" merge -i "$folder/long.bed" | head -n 1 > /dev/null
    echo "${PIPESTATUS[0]}"
}

# The programs of the drop-in that may be run.
programs_of() {
    cd "$1/lib/dunekettle"
    for file in bin/bedtools drop-in script/bedtools; do
        [ ! -x "$file" ] || echo "${file#bin/}"
    done | paste -s -d ' '
}

# The front and the drop-in in a folder of an installation, with nothing but them and usual tools on PATH.
expect_front() {
    local front=$1/bin/dunekettle links=$1/lib/dunekettle/bin
    expect "$2: the front" "chr1	2	9" "$(records | "$front" merge)"
    expect "$2: its help" "dunekettle merge [-i FILE] [-g GENOME] [-d N] [-s | -S + | -S -]" \
        "$("$front" help merge | head -n 1)"
    expect "$2: its hint" "dunekettle: none isn't there" "$("$front" merge -i none 2>&1 | tail -n 1 || true)"
    expect "$2: its check" \
        "$folder/sorted.bed: BED; 2 records on 1 chromosome; 3 columns; sorted, by the bytes of the names" \
        "$("$front" check "$folder/sorted.bed")"
    expect "$2: its version" "Dunekettle $(sed -n 's/^## //p' CHANGELOG.md | head -n 1)" \
        "$("$front" --version | sed -n '1s/,.*//p')"
    expect "$2: the drop-in" "chr1	2	9" "$("$links/mergeBed" -i "$folder/sorted.bed")"
    expect "$2: who took it" "dunekettle: Dunekettle takes merge" "$(who_takes "$1" "$folder/long.bed")"
    DUNEKETTLE_TELL=$folder/told.txt "$links/bedtools" merge -i "$folder/long.bed" > /dev/null
    expect "$2: its report" "1 call, of which 1 of the seven commands; Dunekettle took 1 of 1 (100 percent)" \
        "$("$front" report "$folder/told.txt" | head -n 1)"
    rm -f "$folder/told.txt"
    cp "$front" "$folder/copy"
    expect "$2: a copy of the front" "chr1	2	9" "$(records | PATH=$1/bin:$PATH "$folder/copy" merge)"
    expect "$2: a reader that goes away" "141" "$(without_reader "$1")"
    expect "$2: its links" "7" "$(find "$links" -type l -exec test -x {} \; -print | wc -l)"
    expect "$2: the drop-in's program" "bedtools drop-in script/bedtools" "$(programs_of "$1")"
    expect "$2: who takes a small file" "dunekettle: Dunekettle takes merge" "$(who_takes "$1" "$folder/sorted.bed")"
    ln -sf "$links/mergeBed" "$folder/mergeBed"
    expect "$2: a link to the drop-in" "chr1	2	9" "$("$folder/mergeBed" -i "$folder/sorted.bed")"
}

# Words that a shell offers for a begun command line, in one line.
in_bash() {
    bash -c "source '$share/bash-completion/completions/${1%% *}'
        COMP_WORDS=($1); COMP_CWORD=\$((\${#COMP_WORDS[@]} - 1))
        _$(tr - _ <<< "${2:-dunekettle-bedtools}") 2> /dev/null
        printf '%s\n' \"\${COMPREPLY[@]%%  (*}\"" | sort | paste -s -d ' '
}
in_fish() {
    fish -c "source '$share/fish/vendor_completions.d/${1%% *}.fish'; complete -C '$1'" | cut -f 1 | sort |
        paste -s -d ' '
}
in_zsh() { # what zsh shows behind a tab, as soon as it has a word
    zsh -f -c "zmodload zsh/zpty; zpty shell zsh -f -i; zpty -w shell 'fpath=($share/zsh/site-functions \$fpath)
        autoload -Uz compinit; compinit -u -d $folder/dump; PS1=; unsetopt beep; LISTMAX=999; COLUMNS=300'
        zpty -w -n shell '$1'\$'\t'; for n in {1..60}; do sleep 0.5; while zpty -r -t shell more; do text+=\$more; done
        [[ \$text == *'$2'* ]] && break; done; print -r -- \$text; zpty -d shell"
}

records > "$folder/sorted.bed"
awk 'BEGIN { for (n = 0; n < 99999; n++) print "chr1\t" 9 * n "\t" 9 * n + 5 }' > "$folder/long.bed"
share=$folder/there/share
make --silent install DESTDIR= PREFIX="$folder/there" NAME=trial-tools
expect "the installed program" "chr1	2	9" "$(records | "$folder/there/bin/trial-tools" merge)"
if has objcopy && has strings; then
    version=$(sed -n 's/^## //p' CHANGELOG.md | head -n 1)
    expect "its version" "Dunekettle $version" "$(strings -a "$folder/there/bin/trial-tools" | grep '^Dunekettle ')"
fi
expect_front "$folder/there" "the installation"
expect "the docs of an installation" "yes" "$([ -f "$share/doc/trial-tools/docs/ERRORS.md" ] && echo yes)"
expect "links of its pages that lead nowhere" "" "$(lost_links "$share/doc/trial-tools")"
recipe() { "$share/dunekettle/recipes/intersect-F.sh" -a "$folder/sorted.bed" -b "$folder/sorted.bed" -F 0.5 -u; }
expect "a recipe" "$(printf 'chr1\t2\t6\nchr1\t4\t9')" "$(PATH=$folder/there/bin:$PATH recipe)"
expect "a recipe, and no program on PATH" "$(printf 'chr1\t2\t6\nchr1\t4\t9')" "$(recipe)"
links=$(grep -o '\](' -r "$share/doc/trial-tools" --include='*.md' | wc -l)
expect "links of its pages" "yes" "$([ "$links" -gt 100 ] && echo yes)"
if has man; then
    shown_page() { MANWIDTH=80 man -l "$share/man/man1/$1.1" | col -b; }
    page=$(shown_page trial-tools)
    expect "the examples of its manual page" "yes" "$(grep -q 'trial-tools merge -i' <<< "$page" && echo yes)"
    expect "no example of another name" "" "$(grep -E 'bedtools (merge|intersect|bamtobed) ' <<< "$page" || true)"
    expect "the page of its front" "yes" "$(shown_page dunekettle | grep -c 'trial-tools(1)' > /dev/null && echo yes)"
    expect "a page of each command" "7" "$(for file in "$share"/man/man1/dunekettle-*.1; do
        shown_page "$(basename "$file" .1)" | grep -c '^OPTIONS'
    done | wc -l)"
    expect "the page of a command" "yes" \
        "$(shown_page dunekettle-merge | grep -c 'trial-tools(1)' > /dev/null && echo yes)"
    expect "its title" "yes" "$(grep -q '^TRIAL-TOOLS(1)' <<< "$page" && echo yes)"
fi
expect "a command in bash" "merge" "$(in_bash 'trial-tools me')"
expect "options in bash" "-wa -wb -wo" "$(in_bash 'trial-tools intersect -w')"
expect "strands in bash" "+ -" "$(in_bash "trial-tools merge -S ''")"
expect "a command of the front in bash" "check" "$(in_bash 'dunekettle ch' dunekettle)"
expect "options of the front in bash" "-wa -wb -wo" "$(in_bash 'dunekettle intersect -w' dunekettle)"
expect "options of its check in bash" "--json" "$(in_bash 'dunekettle check --' dunekettle)"
expect "its report in bash" "report" "$(in_bash 'dunekettle rep' dunekettle)"
expect "commands behind help in bash" "merge" "$(in_bash 'dunekettle help me' dunekettle)"
if has fish; then
    expect "a command in fish" "merge" "$(in_fish 'trial-tools me')"
    expect "options in fish" "-wa -wb -wo" "$(in_fish 'trial-tools intersect -w')"
    expect "a command of the front in fish" "check" "$(in_fish 'dunekettle ch')"
fi
if has zsh; then
    shown=$(in_zsh 'trial-tools intersect -w' 'number of bases')
    expect "options in zsh" "yes" "$(grep -q -- '-wo .*number of bases' <<< "$shown" && echo yes)"
fi

# The scripts where they are installed: any name, any cut, and what shellcheck says.
scripts=("$share"/dunekettle/recipes/*.sh "$share"/dunekettle/shards/*.sh)
expect "installed recipes" "$(find recipes shards -type f | wc -l)" "$(find "$share/dunekettle" -type f | wc -l)"
expect "a program of another name in a script" "" "$(grep -l dunekettle-bedtools -r "$share/dunekettle" || true)"
ln -s trial-tools "$folder/there/bin/dunekettle-bedtools"
for kind in recipes shards; do
    expect "names and calls of installed $kind" "0" "$(PATH=$folder/there/bin:$PATH tests/recipes/safe.py "$kind" \
        "$share/dunekettle/$kind" > "$folder/said.txt" 2>&1; echo $?)"
    tail -n 3 "$folder/said.txt"
done
rm "$folder/there/bin/dunekettle-bedtools"
mapfile -t cut < <(printf '%s\n' "${scripts[@]}" | grep -v functions.sh)
cut+=("$folder/there/bin/dunekettle" "$folder/there/lib/dunekettle/bin/bedtools" packaging/*.sh)
expect "installed scripts that are cut" "0" \
    "$(tests/recipes/safe.py cut "${cut[@]}" > "$folder/said.txt" 2>&1; echo $?)"
tail -n 3 "$folder/said.txt"
if has shellcheck; then
    home=$folder/there/lib/dunekettle
    expect "shellcheck of installed scripts" "" "$(shellcheck -x -P SCRIPTDIR -P "$home" \
        "$folder/there/bin/dunekettle" "$home/bin/bedtools" "$home"/*.sh "${scripts[@]}" || true)"
fi
mv "$share/doc" "$folder/doc"
expect "a recipe without the folder of pages" "$(records)" "$(PATH=$folder/there/bin:$PATH recipe)"
mv "$folder/doc" "$share/doc"

# Calls while it is installed again and again: each has the whole output.
while [ ! -e "$folder/enough" ]; do make --silent install DESTDIR= PREFIX="$folder/there" NAME=trial-tools; done &
installer=$!
calls=0 broken=0
ours=("$folder/there/bin/trial-tools" "$folder/there/bin/dunekettle" "$folder/there/lib/dunekettle/bin/bedtools")
stranded=$share/dunekettle/recipes/with-strand.sh
while [ "$calls" -lt 400 ]; do
    calls=$((calls + 1))
    for call in "${ours[@]}"; do
        [ "$(DUNEKETTLE_SMALL=0 "$call" merge -i "$folder/sorted.bed" 2>&1)" = "chr1	2	9" ] || broken=$((broken + 1))
    done
    found=$(PATH=$folder/there/bin:$PATH "$stranded" <(printf 'chr1\t2\t6\ta\t0\t+\n') || true)
    [ "$found" = "chr1	2	6	a	0	+" ] || broken=$((broken + 1))
done
touch "$folder/enough"
wait "$installer"
expect "calls while it was installed, of $((4 * calls))" "0" "$broken"
expect "what an installation leaves beside its files" "" "$(find "$folder/there" -name '*.new')"

make --silent uninstall DESTDIR= PREFIX="$folder/there" NAME=trial-tools
expect "what is left of an installation" "$folder/there" "$(find "$folder/there")"

# A name comes from the command line alone, and no odd one is taken; all may read what root installs.
for name in 'two words' 'a&b' "a'b" 'a"b' 'a|b' '-x' '..' 'a/b' "\$(touch $folder/hit)" dunekettle dunekettle-merge; do
    status=0
    make --silent install DESTDIR= PREFIX="$folder/named" "NAME=${name//\$/\$\$}" > "$folder/said.txt" 2>&1 || status=$?
    expect "NAME=$name" "2 no" "$status $([ -e "$folder/named" ] || echo no)"
done
# shellcheck disable=SC2016
odd=$folder/'named & |`touch hit`"2'
(umask 077; NAME='from the environment' make --silent install DESTDIR= PREFIX="$odd")
expect "the name of a program installed with another NAME in the environment" "dunekettle dunekettle-bedtools" \
    "$(cd "$odd/bin" && echo *)"
expect "what others can't read" "" "$(find "$odd" \( -type d ! -perm -5 -o -type f ! -perm -4 \) -print)"
expect "a page's place" "yes" "$(grep -qF "${odd##*/}/share/doc/" "$odd/share/man/man1/dunekettle.1" && echo yes)"
make --silent uninstall DESTDIR= PREFIX="$odd"
expect "what a name ran" "no no" "$([ -e "$folder/hit" ] || echo no) $([ -e hit ] || echo no)"

expect "licences and the SBOM" "0" "$(packaging/licences.py > "$folder/said.txt"; echo $?)"
cat "$folder/said.txt"
if has readelf; then
    hardening() {
        readelf -hW "$1" | sed -n 's/.*Type: *\([A-Z]*\).*/\1/p'
        readelf -dW "$1" | grep -o 'BIND_NOW' | sed 's/BIND_//'
        readelf -lW "$1" | sed -n 's/.*GNU_\(RELRO\) .*/\1/p; s/.*GNU_STACK .* \(RWE*\) .*/\1/p'
    }
    for program in bin/bedtools bin/drop-in; do
        expect "hardening of $program: any address, no table is written later, no stack is run" "DYN NOW RELRO RW" \
            "$(hardening "$program" | sort | paste -s -d ' ')"
    done
fi

make --silent dist > "$folder/said.txt"
tarball=$(sed -n 's/^Made \([^,]*\),.*/\1/p' "$folder/said.txt")
expect "the tarball's checksum" "yes" "$(cd bin && sha256sum --quiet -c "$(basename "$tarball").sha256" && echo yes)"
tar -C "$folder" -xzf "$tarball"
unpacked=$folder/$(basename "$tarball" .tar.gz)
expect "the checksums in the tarball" "yes" "$(cd "$unpacked" && sha256sum --quiet -c SHA256SUMS && echo yes)"
expect "each file has one" "$(cd "$unpacked" && find . -type f | wc -l)" "$(($(wc -l < "$unpacked/SHA256SUMS") + 1))"
expect "the program in the tarball" "chr1	2	9" "$(records | "$unpacked/bin/dunekettle-bedtools" merge)"
expect_front "$unpacked" "the tarball"
expect "links of the tarball's pages that lead nowhere" "" "$(lost_links "$unpacked")"
expect "licences in the tarball" "LICENSE copyright sbom.spdx.json" \
    "$(cd "$unpacked/share/doc/dunekettle-bedtools" && echo LICENSE copyright* sbom*)"
sum=$(cat "$tarball.sha256")
make --silent dist > /dev/null
expect "the same tarball once more" "$sum" "$(cat "$tarball.sha256")"

# The same of a copy on another file system, by another owner, with another umask, and variables that choose a
# compressor.
other=$(mktemp -d -p "$([ -w /dev/shm ] && echo /dev/shm || echo "$folder")")
trap 'rm -rf "$folder" "$other"' EXIT
cp -a . "$other/copy"
[ "$(id -u)" != 0 ] || chown -R 65534 "$other"
touch "$other/copy/bin/bedtools" "$other/copy/bin/drop-in"
elsewhere() {
    (umask 077; cd "$other/copy" && GZIP=-1 XZ_DEFAULTS=-0 XZ_OPT=-0 TAR_OPTIONS=--format=pax \
        DPKG_DEB_COMPRESSOR_TYPE=gzip DPKG_DEB_THREADS_MAX=3 LC_ALL=C.UTF-8 TZ=Asia/Tokyo \
        make --silent "$@" > "$folder/said.txt" 2>&1)
}
elsewhere dist
expect "the same tarball elsewhere" "$sum" "$(cat "$other/copy/$tarball.sha256")"
SOURCE_DATE_EPOCH=86400 make --silent dist > /dev/null
expect "the date of SOURCE_DATE_EPOCH" "1970-01-02" \
    "$(tar --full-time --utc -tvzf "$tarball" | awk '{ print $4 }' | sort -u)"

if has dpkg-deb; then
    make --silent deb > "$folder/said.txt"
    package=$(sed -n "s/.* in '\(.*\)'.*/\1/p" "$folder/said.txt")
    root=$folder/root
    mkdir -p "$root/var/lib/dpkg/updates" "$root/var/lib/dpkg/info" "$root/usr/bin"
    : > "$root/var/lib/dpkg/status"
    echo other > "$root/usr/bin/bedtools"
    debian() { dpkg --root="$root" --force-not-root --force-depends --log=/dev/null "$@" > "$folder/said.txt" 2>&1; }
    debian --install "$package"
    expect "the package's program" "chr1	2	9" "$(records | "$root/usr/bin/dunekettle-bedtools" merge)"
    expect_front "$root/usr" "the package"
    expect "links of the package's pages that lead nowhere" "" "$(lost_links "$root/usr")"
    expect "bedtools beside it" "other" "$(cat "$root/usr/bin/bedtools")"
    expect "its files are whole" "" "$(cd "$root" && md5sum --quiet -c var/lib/dpkg/info/dunekettle-bedtools.md5sums)"
    expect "completions where zsh of Debian looks" "_dunekettle _dunekettle-bedtools" \
        "$(cd "$root/usr/share/zsh/vendor-completions" && echo *)"
    sum=$(sha256sum < "$package")
    elsewhere deb
    expect "the same package elsewhere" "$sum" "$(sha256sum < "$other/copy/$package")"
    if has lintian; then
        expect "errors and warnings of lintian" "" "$(lintian "$package" 2> /dev/null | grep '^[EW]:' || true)"
    fi
    debian --purge dunekettle-bedtools
    expect "what is left of it" "$root/usr/bin/bedtools" "$(find "$root/usr" -type f)"
fi

echo "$cases cases of packages, $wrong of them differ"
[ "$wrong" = 0 ]
