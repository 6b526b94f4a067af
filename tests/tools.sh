#!/bin/sh
# Runs the tests of tools/: each tests/tools/NAME.sh, in an empty folder of its own with ROOT for the repository, prints what NAME.out
# has. Those with a line "# needs the program" are left out where ./build has not built m_tax and M_TAX doesn't name it, those with a line
# "# needs both programs" where the same is so of m_survey and M_SURVEY, and those with a line "# needs COMMAND" where that isn't installed. Prints
# the differences of each test that fails, or takes over 15 minutes, and a count. The status is 0 where none fails.
here=$PWD
cd "$(dirname "$0")/.." || exit 1
if ! command -v python3 >/dev/null 2>&1; then
    echo "tools: not run: there is no python3"
    exit 0
fi
ROOT=$PWD
# named PROGRAM FILE: the file to use as PROGRAM, or what ./build made; nothing if neither is there.
named() {
    case $2 in
        "") [ ! -x "out/$1" ] || echo "$ROOT/out/$1" ;;
        /*) echo "$2" ;;
        */*) echo "$here/$2" ;;
        *) echo "$2" ;;
    esac
}
M_TAX=$(named m_tax "${M_TAX-}")
M_SURVEY=$(named m_survey "${M_SURVEY-}")
export ROOT
if [ -n "$M_TAX" ]; then export M_TAX; else unset M_TAX; fi
if [ -n "$M_SURVEY" ]; then export M_SURVEY; else unset M_SURVEY; fi
PYTHONDONTWRITEBYTECODE=1
export PYTHONDONTWRITEBYTECODE
unset LC_ALL LC_MESSAGES LANG
room=$(mktemp -d) || exit 1
trap 'rm -rf "$room"' EXIT
trap 'exit 1' HUP INT TERM
passed=0
failed=0
left=0
for test in tests/tools/*.sh; do
    name=$(basename "$test" .sh)
    if [ -z "${M_TAX-}" ] && grep -q -e '^# needs the program' -e '^# needs both programs' "$test" ||
        [ -z "${M_SURVEY-}" ] && grep -q '^# needs both programs' "$test"; then
        left=$((left + 1))
        continue
    fi
    needed=$(sed -n 's/^# needs \([a-z0-9]*\)$/\1/p' "$test")
    if [ -n "$needed" ] && ! command -v "$needed" >/dev/null 2>&1; then
        echo "tools: $name: not run: there is no $needed"
        continue
    fi
    mkdir "$room/$name" || exit 1
    (cd "$room/$name" && timeout 900 sh "$ROOT/$test") >"$room/out" 2>&1 </dev/null
    if cmp -s "$room/out" "tests/tools/$name.out"; then
        passed=$((passed + 1))
    else
        failed=$((failed + 1))
        echo "tools: $name: not what is stored (<) but (>):"
        diff "tests/tools/$name.out" "$room/out" | head -n 20
    fi
done
[ "$left" -eq 0 ] || echo "tools: $left left out, which need the programs that ./build makes"
echo "tools: $passed passed, $failed failed"
[ "$failed" -eq 0 ]
