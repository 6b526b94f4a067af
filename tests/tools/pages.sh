# needs both programs
# The commands of pages print the answers that the pages have. docs/PYTHON.md has a test of its own, in python/tests.
for name in examples tools python docs web; do ln -s "$ROOT/$name" $name; done
printf '#!/bin/sh\nexec "$M_TAX" "$@"\n' >m_tax
printf '#!/bin/sh\nexec "$M_SURVEY" "$@"\n' >m_survey
chmod +x m_tax m_survey
mkdir tmp households
# The files that pages name and don't make: answers of a batch, a code file, ranges, households, a sheet, and a report.
"$M_TAX" batch examples/first/rules.list - - examples/first/table.csv >ANSWERS
"$M_TAX" compile examples/first/rules.list - - >first.code
printf 'code,given,least,greatest\n1AJ,maybe,0,10000\n' >ranges.csv
cp examples/first/household.csv households
cp examples/first/table.csv FILE
printf 'REV = 2500.5\nSEUIL = 1000\nIRN = 1500.5\n.\n' >report.txt
pages() { python3 -B "$ROOT/tests/tools/pages.py" "$@"; }
pages README.md LISEZMOI.md docs/FIRST_HOUR.md docs/SESSIONS.md docs/WHY.md docs/TOOLS.md docs/CASES.md docs/CODE.md docs/EDITORS.md docs/FACTS.md \
    docs/FINDINGS.md docs/PAGE.md docs/SCALE.md docs/fr/PREMIERE_HEURE.md examples/chain/README.md examples/impot2023/LISEZMOI.md \
    examples/impot2023/README.md examples/impots/README.md examples/loops/README.md
rm -r parts reform
pages docs/fr/PAGE.md examples/cluster/README.md
