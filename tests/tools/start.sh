# The start of the programs: whether the sources are newer than what ./build made, by tools/start.c and, where ./build had no C compiler, by find.
# needs cc
mkdir -p bin none made/tools made/crates/m_tax/src made/crates/m_survey/src made/crates/any/src/below made/crates/any/specs/below made/crates/any/proofs
cp "$ROOT/build" "$ROOT/m_tax" made
cp "$ROOT/tools/start.c" made/tools
ln -s m_tax made/m_survey
for file in src/file src/below/file specs/file specs/below/file proofs/file; do : >"made/crates/any/$file"; done
: >made/crates.txt
# A toolchain that proves nothing: its program of each crate prints its words, and ends with status 6.
cat >bin/rt <<'END'
#!/bin/sh
[ "$1" = run ] || exit 0
name=${PWD##*/}
mkdir -p out
cat >"out/$name" <<PROGRAM
#!/bin/sh
echo "$name: \$*"
exit 6
PROGRAM
chmod +x "out/$name"
echo "usage: $name "
END
chmod +x bin/rt
here=$PWD
aged() { find "$1/crates" "$1/crates.txt" -exec touch -h -d '2000-01-01' {} + && touch -d '2000-01-02' "$1/out/built"; }
echo "-- what ./build makes: the programs, the start, the list of the sources and of folders that there could be, and its time"
(cd made && PATH=$here/bin:$PATH ./build) 2>/dev/null
echo "status $?"
ls made/out
sort made/out/sources
aged made
cp -a made bare && rm bare/out/start

# changed SITE CHANGE: starts the program of a copy in which this was done.
changed() {
    rm -rf site && cp -a "$1" site
    (cd site/crates/any && eval "$2")
    site/m_tax run "a b" 2>&1
    echo "status $?"
}
for site in made bare; do
    echo "-- $site: nothing is newer; a proof is newer"
    changed $site : && changed $site 'echo >>proofs/file'
    echo "-- $site: a file of each folder that is rewritten, new, gone or moved, and a crate that is new: each is told"
    for change in 'echo >>src/file' 'echo >>src/below/file' 'echo >>specs/file' 'echo >>specs/below/file' ': >src/other' 'rm src/file' ': >src/below/other' \
        ': >specs/other' 'rm specs/file' 'rm specs/below/file' 'mkdir src/new' 'mv specs/below/file specs/moved' 'mkdir -p ../new/src' 'mkdir -p ../new/specs' \
        'mkdir ../m_tax/specs' 'echo >>../../crates.txt' 'mv ../../crates.txt ../../old.txt && : >../../crates.txt' \
        'touch -d "2000-01-02 00:00:00.000000001" src/file'; do
        changed $site "$change" >said
        echo "$(cat said)" | tr '\n' ' '
        echo "$change"
    done
    echo "-- $site: a file of the very time; a build that was ended"
    changed $site 'touch -d 2000-01-02 src/file'
    changed $site 'rm ../../out/built'
done
echo "-- no list of the sources; one that can't be read; a program that can't be started"
changed made 'rm ../../out/sources'
changed made 'rm ../../out/sources && mkdir ../../out/sources'
changed made 'echo "#!/nowhere" >../../out/m_tax' 2>&1 | sed "s|$here|.|"
echo "-- the other program, from another folder and through links"
ln -s "$here/made/m_survey" anything
for call in made/m_survey ./made/m_survey ./anything "$here/anything"; do (cd "$here" && CDPATH=$here:/ "$call" table "a  b"; echo "status $?"); done
echo "-- ./build without a C compiler: no start is left of the build before"
printf '#!/bin/sh\nexit 1\n' >none/cc
chmod +x none/cc
(cd made && PATH=$here/none:$here/bin:$PATH ./build) 2>/dev/null
echo "status $?"
ls made/out
made/m_tax run
echo "status $?"
