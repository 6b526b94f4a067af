# A part of tests/started.sh, which reads it: what the scripts m_tax and build do, through links, with sources that are newer, and when they are ended.
# shellcheck shell=sh disable=SC2154

# The script: through a symbolic link and from another folder, two at once, and words that a trial can't take.
ln -s "$program" "$dir/linked"
if [ $way = built ]; then said=; else said=$trial; fi
(
    cd examples && "$dir/linked" run first/../../../base.list - - first/household.csv
) >"$dir/out" 2>"$dir/err" </dev/null
status=$?
if [ $way = built ]; then
    judge "$status" 3 "unreadable first/../../../base.list" "run through a link"
else
    judge "$status" 70 "" "run of a file above this folder" "$said
m_tax: the trial can't take the file first/../../../base.list; ./build proves and builds the program, which can"
fi
"$dir/linked" run nowhere.list - - $household >"$dir/second" 2>/dev/null </dev/null &
"$dir/linked" run $list - - $household >"$dir/out" 2>"$dir/err" </dev/null
judge "$?" 0 "IRN = 1500.5" "run through a link" "$said"
wait $!
status=$?
cp "$dir/second" "$dir/out" && : >"$dir/err"
judge "$status" 3 "unreadable nowhere.list" "a second run at once"

# The script where the sources are newer than the program: it reports this, and runs the program that was proved. tests/tools/start.sh has each kind of change.
mkdir -p "$dir/old/out" "$dir/old/crates/any/src" "$dir/old/crates/any/specs"
cp m_tax "$dir/old/m_tax"
printf '#!/bin/sh\necho "program: $*"\nexit 6\n' >"$dir/old/out/m_tax"
chmod +x "$dir/old/out/m_tax"
touch -d '2000-01-01' "$dir/old/out/built"
: >"$dir/old/crates.txt"
"$dir/old/m_tax" run "a b" >"$dir/out" 2>"$dir/err"
judge "$?" 6 "program: run a b" "sources that are newer" "m_tax: the sources are newer than the program; this is the program as ./build proved it last"
for part in src specs/below; do
    mkdir -p "$dir/old/crates/any/$part" && : >"$dir/old/crates/any/$part/file"
done
aged() { find "$dir/old/crates" "$dir/old/crates.txt" -exec touch -d '2000-01-01' {} + && touch -d '2000-01-02' "$dir/old/out/built"; }
# The look doesn't depend on where the script is called from, nor on how its name is written.
mkdir "$dir/far" "$dir/far/links"
ln -s ../../old/m_tax "$dir/far/links/m_tax"
ln -s "$dir/far/links" "$dir/there"
ln -s there/m_tax "$dir/again"
for call in 'old/m_tax' './old/m_tax' 'sh old/m_tax' 'there/m_tax' './again' "$dir/old/m_tax" "$dir/again"; do
    aged
    (cd "$dir" && eval "CDPATH=$dir:$dir/far $call run") >"$dir/out" 2>"$dir/err"
    judge "$?" 6 "program: run" "$call, nothing newer"
    echo >>"$dir/old/crates/any/specs/below/file"
    (cd "$dir" && eval "CDPATH=$dir:$dir/far $call run") >"$dir/out" 2>"$dir/err"
    judge "$?" 6 "program: run" "$call, a newer file" "m_tax: the sources are newer than the program; this is the program as ./build proved it last"
done
# The other name runs the other program, also through a link of its own name; a link of any name runs the one that it points to.
aged
printf '#!/bin/sh\necho "survey: $*"\nexit 5\n' >"$dir/old/out/m_survey"
chmod +x "$dir/old/out/m_survey"
ln -s m_tax "$dir/old/m_survey"
mkdir "$dir/other"
ln -s "$dir/old/m_survey" "$dir/other/anything"
ln -s "$dir/old/m_tax" "$dir/other/m_survey"
for name in "$dir/old/m_survey" "$dir/other/anything" "$dir/other/m_survey"; do
    "$name" table "a b" >"$dir/out" 2>"$dir/err"
    judge "$?" 5 "survey: table a b" "m_survey as ${name#"$dir"/}"
done
echo >>"$dir/old/crates/any/src/file"
"$dir/old/m_survey" table >"$dir/out" 2>"$dir/err"
judge "$?" 5 "survey: table" "sources that are newer than m_survey" \
    "m_survey: the sources are newer than the program; this is the program as ./build proved it last"
rm "$dir/old/out/built"
"$dir/old/m_tax" run "a b" >"$dir/out" 2>"$dir/err"
judge "$?" 6 "program: run a b" "a build that was ended" \
    "m_tax: it isn't known whether the program is of these sources, since ./build was interrupted; ./build goes on"

# ./build through a symbolic link finds no crates in the link's folder, and makes nothing there.
mkdir "$dir/links"
ln -s "$root/build" "$dir/links/build"
"$dir/links/build" >"$dir/out" 2>"$dir/err"
judge "$?" 1 "" "build through a link" "build: there are no crates in $dir/links: start it by its own name in the repository"
[ "$(ls "$dir/links")" = build ] || { failed=$((failed + 1)); echo "started: build through a link left something"; }

# What a trial can't take ends before anything is compiled: a list through a pipe, whose rule files nobody could hand in, and a file that this shell opened.
mkdir -p "$dir/bare/crates/m_tax"
cp m_tax "$dir/bare/m_tax"
mkfifo "$dir/pipe"
"$dir/bare/m_tax" run "$dir/pipe" - - $household >"$dir/out" 2>"$dir/err"
judge "$?" 70 "" "a list through a pipe, in a trial" "$trial
m_tax: the trial can't take the list $dir/pipe, which is no plain file; ./build proves and builds the program, which can"
"$dir/bare/m_tax" run $list - - /dev/fd/9 9<$household >"$dir/out" 2>"$dir/err"
judge "$?" 70 "" "a file that the shell opened, in a trial" "$trial
m_tax: the trial can't take the file /dev/fd/9; ./build proves and builds the program, which can"

# A trial whose script is ended, however that is done, ends what it started, and leaves nothing.
mkdir "$dir/bin" "$dir/tmp"
cat >"$dir/bin/rt" <<END
#!/bin/sh
trap 'kill "\$!"; : >"$dir/ended"; exit 143' TERM
sleep 60 &
: >"$dir/begun"
wait
END
chmod +x "$dir/bin/rt"
for signal in TERM KILL; do
    rm -f "$dir/begun" "$dir/ended"
    PATH=$dir/bin:$PATH TMPDIR=$dir/tmp "$dir/bare/m_tax" run $list - - $household >"$dir/out" 2>/dev/null &
    tries=0
    until [ -e "$dir/begun" ] || [ $tries -eq 100 ]; do sleep 0.1 && tries=$((tries + 1)); done
    kill -$signal $! && wait $! 2>/dev/null
    until [ -e "$dir/ended" ] && [ -z "$(ls -A "$dir/tmp")" ] || [ $tries -eq 200 ]; do sleep 0.1 && tries=$((tries + 1)); done
    if [ -e "$dir/ended" ]; then ls -A "$dir/tmp"; else echo "rt goes on"; fi >"$dir/err"
    : >"$dir/out"
    judge 0 0 "" "a trial that SIG$signal ends"
done

# So does ./build, which leaves its messages.
mkdir -p "$dir/site/crates/m_tax/src" "$dir/site/crates/m_tax/specs"
: >"$dir/site/crates.txt"
cp build "$dir/site/build"
rm -f "$dir/begun" "$dir/ended"
PATH=$dir/bin:$PATH "$dir/site/build" >"$dir/out" 2>/dev/null &
tries=0
until [ -e "$dir/begun" ] || [ $tries -eq 100 ]; do sleep 0.1 && tries=$((tries + 1)); done
kill -TERM $! && wait $!
status=$?
until [ -e "$dir/ended" ] || [ $tries -eq 200 ]; do sleep 0.1 && tries=$((tries + 1)); done
if [ -e "$dir/ended" ]; then ls "$dir/site/out"; else echo "rt goes on"; fi >"$dir/err"
judge "$status" 1 "" "a build that SIGTERM ends" build.log

# Where the input of a session is closed, a trial doesn't take it for an empty one.
"$dir/bare/m_tax" serve $list - - $household >"$dir/out" 2>"$dir/err" <&-
judge "$?" 70 "" "a closed input, in a trial" "$trial
m_tax: the input is closed; ./build proves and builds the program, which can"
