#!/bin/sh
# Compares the documents with the repository, where a text can be compared: the crates with their first comments, the files and names that
# pages cite, the limits with FORMATS, the usage line's copies, the reserved words with LANGUAGE, DRIVER and the files for editors, the
# definitions that PROVED counts, links with files, words with ARCHITECTURE's table of English, blanks of French pages, and sizes of pages and of code with
# their limits.
# Prints a line for each difference, and a count. The status is 0 where there is none.
cd "$(dirname "$0")/.." || exit 1
room=$(mktemp -d) || exit 1
trap 'rm -rf "$room"' EXIT
trap 'exit 1' HUP INT TERM
compared=0
failed=0

# same WHAT FILE FILE: two lists, a line an element, are the same.
same() {
    compared=$((compared + 1))
    if [ -s "$2" ] && cmp -s "$2" "$3"; then return; fi
    failed=$((failed + 1))
    echo "documents: $1 differ:"
    diff "$2" "$3" | sed -n 's/^[<>]/    &/p'
}

# Crates: crates.txt is the one list of them. Each has a folder, and a first comment, from which tests/crates.py prints the table.
sed -n 's/^\([a-z][a-z0-9_]*\)[^:#]*:.*/\1/p' crates.txt >"$room/order"
sort "$room/order" >"$room/index"
git ls-files crates | cut -d/ -f2 | sort -u >"$room/folders"
same "crates.txt and the folders of crates" "$room/index" "$room/folders"
if command -v python3 >/dev/null 2>&1; then
    python3 -B tests/crates.py --table | sed -n 's/^| \([a-z][a-z0-9_]*\) | [^|].*/\1/p' >"$room/table"
    same "crates.txt and the crates that have a first comment" "$room/order" "$room/table"

    # The files and names that pages for developers cite.
    echo none >"$room/none"
    python3 -B tests/crates.py --cited docs/ARCHITECTURE.md docs/PROVED.md docs/DECISIONS.md docs/PROOFS.md docs/STRENGTH.md CONTRIBUTING.md \
        bench/gate/RESULTS.md >"$room/lacking"
    [ -s "$room/lacking" ] || echo none >"$room/lacking"
    same "the files and names that pages cite and those of the repository" "$room/none" "$room/lacking"
fi

# Limits: FORMATS names each by its constant, with its number; commas and underscores are for the eye.
sed -n 's/^pub const \([A-Z_]*\): [a-z0-9]* = \([0-9_]*\);.*/\1 \2/p' crates/m_places/src/limits.rt | sed 's/_\([0-9]\)/\1/g' | sort >"$room/constants"
awk -F'|' '/^## /{in_table = /^## Limits/} in_table && $3 ~ /`[A-Z_]+`/{gsub(/[` ]/, "", $3); gsub(/[, ]/, "", $4); print $3, $4}' docs/FORMATS.md |
    sort >"$room/limits"
same "the limits of m_places and those of FORMATS" "$room/constants" "$room/limits"

# The same in the Python library.
sed -n 's/^\([A-Z_]*\) = \([0-9_]*\)  # .*/\1 \2/p' python/vodmejka/limits.py | grep -v '^AMOUNT ' | sed 's/_\([0-9]\)/\1/g' | sort >"$room/library"
same "the limits of m_places and those of the Python library" "$room/constants" "$room/library"

# The usage line: the same text in all places.
git grep -hoE 'usage: m_tax run[^"\\]*TABLE' -- README.md LISEZMOI.md docs crates tests/started.sh | sort -u >"$room/usages"
head -n 1 "$room/usages" >"$room/usage"
same "the copies of the usage line" "$room/usage" "$room/usages"

# Reserved words: the spellings of keys, and the block of LANGUAGE.
sed -n 's/.*codes "\([A-Za-z_][A-Za-z_]*\)".*/\1/p' crates/m_lexer/specs/Spellings.antt | sort -u >"$room/keys"
awk '/^These words are reserved:/{seen = 1} seen && /^```/{block++} seen && block == 1 && !/^```/{for (i = 1; i <= NF; i++) print $i}' docs/LANGUAGE.md |
    sort -u >"$room/words"
same "the reserved words of m_lexer and those of LANGUAGE" "$room/keys" "$room/words"

# The same for drivers.
sed -n 's/.*codes "\([a-z]*\)".*/\1/p' crates/mpp_parser/specs/Keywords.antt | sort -u >"$room/driver_keys"
sed -n 's/^These words are reserved: `\(.*\)`\.$/\1/p' docs/DRIVER.md | tr ' ' '\n' | sort -u >"$room/driver_words"
same "the reserved words of mpp_parser and those of DRIVER" "$room/driver_keys" "$room/driver_words"

# The words that editors show: their lists, and the words in the files for each editor.
editors=tools/editors
sort -u python/vodmejka/words/m.words >"$room/listed"
sort -u python/vodmejka/words/mpp.words >"$room/driver_listed"
same "the reserved words of m_lexer and m.words" "$room/keys" "$room/listed"
same "the reserved words of mpp_parser and mpp.words" "$room/driver_keys" "$room/driver_listed"
for pair in mtax.vim:listed mpptax.vim:driver_listed; do
    sed -n 's/^syn keyword [A-Za-z]* //p' "$editors/vim/syntax/${pair%:*}" | tr ' ' '\n' | sort >"$room/coloured"
    same "the words of ${pair%:*} and their list" "$room/coloured" "$room/${pair#*:}"
done
for pair in m.tmLanguage.json:listed mpp.tmLanguage.json:driver_listed; do
    sed -n 's/.*"\\\\b(\([A-Za-z_|]*\))\\\\b".*/\1/p' "$editors/vscode/${pair%:*}" | tr '|' '\n' | sort >"$room/coloured"
    same "the words of ${pair%:*} and their list" "$room/coloured" "$room/${pair#*:}"
done

# The counts of lines to read in PROVED, and those of the script; the list of mutants can be made.
if command -v python3 >/dev/null 2>&1; then
    awk '/^## /{inside = /^## Everything you must read/; next} inside && /^`tests/{exit} inside' docs/PROVED.md | sed '1d;$d' >"$room/told"
    python3 -B tests/definitions.py --head >"$room/counted"
    same "the lines to read of PROVED and what tests/definitions.py --head prints" "$room/counted" "$room/told"
    if python3 -B tests/tries.py --page >"$room/mutants" && [ "$(wc -l <"$room/mutants")" -gt 1000 ]; then echo made; else echo failed; fi >"$room/page"
    echo made >"$room/made"
    same "tests/tries.py --page and a list of mutants" "$room/made" "$room/page"
fi

# English: no page and no comment of a crate has a word that ARCHITECTURE's table replaces, outside of code.
replaced="front|fronts|behind|want of|wrong body|wrong bodies|second reading|refusal|refusals|weighs"
for page in $(git ls-files '*.md' | grep -v '^crates/\|^bench/\|^unlanded/'); do
    awk '/^```/{code = !code; next} !code' "$page" | sed 's/`[^`]*`//g; s/REFUSALS//g; s/front page//g; s/leave it behind//g' |
        grep -niwE "$replaced" | sed "s|^|$page: |"
done >"$room/words"
git ls-files 'crates/*.rt' | xargs sed -n 's/^ *\(.*[ ;,{}]\)\{0,1\}\/\/[\/!]\{0,1\} //p' | sed 's/`[^`]*`//g' | grep -iwE "$replaced" >>"$room/words"
git ls-files 'crates/*.antt' | xargs sed -n 's/^ *-- //p' | sed 's/`[^`]*`//g' | grep -iwE "$replaced" >>"$room/words"
echo none >"$room/none"
[ -s "$room/words" ] || echo none >"$room/words"
same "the words of the pages and comments and ARCHITECTURE's table" "$room/none" "$room/words"

# Pages say what is reported, requested or equal, without figures of speech.
figures="told|tells?|said|asked for|befalls?|comes to|goes along|its like|what there is|as ever|dearest|reckons?"
for page in README.md CONTRIBUTING.md SECURITY.md $(git ls-files 'docs/*.md' | grep -v '^docs/fr/'); do
    awk '/^```/{code = !code; next} !code' "$page" | sed 's/`[^`]*`//g' | grep -niwE "$figures" | sed "s|^|$page: |"
done >"$room/figures"
[ -s "$room/figures" ] || echo none >"$room/figures"
same "the words of the pages and those of the field" "$room/none" "$room/figures"

# Links: each names a file that is there.
git ls-files '*.md' | grep -v '^unlanded/' | while read -r page; do
    sed 's/`[^`]*`//g' "$page" | grep -oE '\]\([^):]+\)' | sed 's/^](//; s/)$//; s/#.*//' | while read -r link; do
        [ -z "$link" ] || echo "$page $(dirname "$page")/$link"
    done
done | sort -u >"$room/links"
while read -r page link; do if [ -e "$link" ]; then echo "$page $link"; fi; done <"$room/links" >"$room/there"
same "the links of the pages and the files" "$room/links" "$room/there"

# The French pages have the commands and answers of the English ones.
blocks() { awk '/^```/{code = !code; print "--"; next} code' "$1"; }
for pair in README.md:LISEZMOI.md docs/FIRST_HOUR.md:docs/fr/PREMIERE_HEURE.md docs/PAGE.md:docs/fr/PAGE.md; do
    blocks "${pair%:*}" >"$room/blocks"
    blocks "${pair#*:}" >"$room/french"
    same "the commands and answers of ${pair%:*} and of ${pair#*:}" "$room/blocks" "$room/french"
done

# French pages have hard blanks (C2 A0) before `:`, `;`, `?`, `!`, within quotation marks and within numbers.
for page in $(git ls-files '*LISEZMOI.md' 'docs/fr/*.md'); do
    awk '/^```/{code = !code; next} !code' "$page" | sed 's/`[^`]*`/code/g; s/](\([^)]*\))/]/g' |
        grep -nE ' [:;?!»]|« |[0-9] [0-9]{3}([^0-9]|$)|[0-9] [%€]' | sed "s|^|$page: |"
done >"$room/blanks"
[ -s "$room/blanks" ] || echo none >"$room/blanks"
same "the blanks of the French pages and hard ones" "$room/none" "$room/blanks"

# Code keeps its sizes.
if command -v python3 >/dev/null 2>&1; then
    python3 -B tests/sizes.py >"$room/large"
    [ -s "$room/large" ] || echo none >"$room/large"
    same "the sizes of files, functions and lines, and their limits" "$room/none" "$room/large"
fi

# Pages keep their sizes, in KB: who adds something shortens or removes something else.
sizes="README.md 9 docs/ARCHITECTURE.md 20 docs/PROVED.md 15 docs/DECISIONS.md 18 docs/PROOFS.md 12 docs/STRENGTH.md 6"
echo "$sizes" | xargs -n 2 | while read -r page most; do
    if [ "$(wc -c <"$page")" -le $((most * 1024)) ]; then echo "$page at most $most KB"; else echo "$page has $(wc -c <"$page") bytes"; fi
done >"$room/sizes"
all=$(git ls-files 'docs/*.md' | xargs cat | wc -c)
if [ "$all" -le $((240 * 1024)) ]; then echo "docs at most 240 KB"; else echo "docs has $all bytes"; fi >>"$room/sizes"
{ echo "$sizes" | xargs -n 2 | sed 's/ / at most /; s/$/ KB/'; echo "docs at most 240 KB"; } >"$room/limits"
same "the sizes of pages and their limits" "$room/limits" "$room/sizes"

echo "documents: $((compared - failed)) passed, $failed failed"
[ "$failed" -eq 0 ]
