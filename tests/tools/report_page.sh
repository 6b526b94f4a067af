# needs the program
# Each figure of a reform's page is that of the files next to it, in the bytes and, where there is one, in a browser; a figure that is changed
# in one of them is found.
cd "$ROOT" || exit 1
sh examples/reform2023/make.sh "$OLDPWD/made" 500 >/dev/null; echo "status $?"
cd "$OLDPWD" || exit 1
look() { python3 "$ROOT/tests/tools/report_page.py" made/report 2>/dev/null | sed 's/: .*//'; }
look
cp -r made/report kept
for change in 's/<td>500</<td>501</' 's/<b id=after>[0-9]/&1/' 's/<title>&gt; 0: [0-9.]* %/<title>\&gt; 0: 99.9 %/' \
    's,<title>0 %: [0-9.]* %,<title>0 %: 99.9 %,' 's,<h1>,<img src="x.png"><h1>,'; do
    sed "$change" kept/report.html >made/report/report.html
    cmp -s kept/report.html made/report/report.html && echo "not changed: $change"
    look | head -n 1
done
cp kept/report.html made/report/report.html
sed '5s/^\([^,]*,\)[0-9]/\17/' kept/households.csv >made/report/households.csv
look | head -n 1
