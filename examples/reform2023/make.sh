#!/bin/sh
# Computes the example of a reform: sh examples/reform2023/make.sh [FOLDER] [COUNT] [REFORM]
#
# At the top of the repository, with the program that ./build makes or the one that M_TAX names. FOLDER (out/reform2023), which must not be there, gets the
# made-up households (table.csv, 100,000 or the first COUNT of them), and what tools/reform writes (report). REFORM is thresholds, whose rules tools/variant
# writes into the folder too (rules), or children or capital, whose changed file is in this script's folder.
set -eu
[ -x tools/variant ] || { echo "make: this runs at the top of the repository" >&2; exit 1; }
folder=${1-out/reform2023}
reform=${3-thresholds}
[ ! -e "$folder" ] || { echo "make: $folder is there already" >&2; exit 1; }
case $reform in
    thresholds) after=$folder/rules/rules.list more='' step=1AJ=1000 ;;
    children) after=examples/reform2023/children/rules.list more=--more step=1AJ=1000 ;;
    capital) after=examples/reform2023/capital/rules.list more=--more step=2TR=1000 ;;
    *) echo "make: the reforms are thresholds, children and capital" >&2; exit 1 ;;
esac
mkdir -p "$folder"
[ "$reform" != thresholds ] || tools/variant examples/impot2023/rules.list 'SEUIL[2]=29797' PLAF_DEMI=1559 "$folder/rules"
python3 -B examples/reform2023/households.py "${2-100000}" $more >"$folder/table.csv"
tools/reform examples/impot2023/rules.list "$after" examples/impot2023/driver.mpp - "$folder/table.csv" \
    --of TOTAL --weight weight --by RNI --step "$step" --less-is-gain --into "$folder/report"
