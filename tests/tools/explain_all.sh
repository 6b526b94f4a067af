# Each line of docs/REFUSALS.md has its sentence: what isn't explained is printed. Each capital letter or ".." is replaced by a name.
sed -n 's/^| `\(.*\)` | .*/\1/p' "$ROOT/docs/REFUSALS.md" | sed 's/` | .*//; s/`, `/\n/g' |
    sed 's/ line [L.]*\(:\| byte\)/ line 1\1/; s/ byte \.\.:/ byte 0:/; s/\\|/|/g' | grep -E '^(usage|unreadable|refused)' >lines
"$ROOT/tools/explain" <lines >explained
awk '
    NR == FNR {line[$0]; next}
    $0 in line {if (bare != "") print "no sentence: " bare; bare = $0; next}
    /^  [A-Z]/ {bare = ""; count++}
    END {if (bare != "") print "no sentence: " bare; print (count >= 45 ? "at least 45" : "only " count) " sentences"}' lines explained
# Stops have theirs too.
printf 'failed 2000 A20 anomalie\nA:20:00:no income:N\nover verification 2000 A20\nover driver line 3\n' | "$ROOT/tools/explain"
