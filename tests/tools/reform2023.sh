# needs the program
# The example of reforms: for 20,000 households each line and each sum is that of the second calculation, three are those worked out by hand in its page; of
# all 100,000 the summary and the page are those that are kept. The two other reforms on 5,000 households: the same, and what makes no reform.
cd "$ROOT" || exit 1
here=$OLDPWD
# A file without the program's digest, which each build has of its own.
without_program() { sed -E 's/,[0-9a-f]{64}$/,DIGEST/; s/(program m_survey <code>)[0-9a-f]{64}/\1DIGEST/' "$1"; }
sh examples/reform2023/make.sh "$here/part" 20000 >"$here/told"; echo "status $?"
python3 examples/reform2023/check.py "$here/part"; echo "status $?"
grep -E '^(f000001|f000113|f000219),' "$here/part/report/households.csv" | cut -d, -f1-6
sed 's/f000113,358.1,35606,2209,2219,10,/f000113,358.1,35606,2209,2218,9,/' "$here/part/report/households.csv" >"$here/other" &&
    mv "$here/other" "$here/part/report/households.csv"
python3 examples/reform2023/check.py "$here/part" | tail -n 1
for reform in children capital; do
    sh examples/reform2023/make.sh "$here/$reform" 5000 $reform >>"$here/told"; echo "$reform: status $?"
    python3 examples/reform2023/check.py "$here/$reform" $reform; echo "status $?"
    grep -E '^(f000022|f000034|f000044),' "$here/$reform/report/households.csv" | cut -d, -f1-6
    without_program "$here/$reform/report/summary.csv" >"$here/made"
    without_program examples/reform2023/$reform/summary.csv | cmp "$here/made" - && echo "its summary is the one that is kept"
done
sh examples/reform2023/make.sh "$here/none" 10 flat; echo "status $?"
cp -r examples tools python "$here" && cd "$here" && sh examples/reform2023/make.sh >>told; echo "status $?"
for file in summary.csv report.html; do
    without_program "out/reform2023/report/$file" >made
    without_program "$ROOT/examples/reform2023/$file" | cmp made - && echo "$file is the one that is kept"
done
