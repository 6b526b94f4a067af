# needs the program
# The rates of a single person: at 20,000 the tax is 198, 25,000 adds 719 (11 % of 4,500 and the rebate that goes: 0.1438 of 5,000).
cp -r "$ROOT/examples/impot2023" rules
sed 's,examples/impot2023,rules,' rules/rules.list > here.list
"$ROOT/tools/marginal" here.list rules/driver.mpp rules/households/single.csv 1AJ 10000 30000 5000 --of TOTAL --csv; echo "status $?"
"$ROOT/tools/marginal" here.list rules/driver.mpp rules/households/single.csv 1AJ 0 40000 500 --of TOTAL IINET > picture.svg; echo "status $?"
python3 -c "import xml.dom.minidom as m; d = m.parse('picture.svg'); print(len(d.getElementsByTagName('polyline')))"
"$ROOT/tools/marginal" here.list rules/driver.mpp rules/households/single.csv 1AJ -1000 1000 500 --of TOTAL --csv; echo "status $?"
"$ROOT/tools/marginal" here.list rules/driver.mpp rules/households/single.csv 9ZZ 0 1000 500 --of TOTAL --csv; echo "status $?"
"$ROOT/tools/marginal" here.list rules/driver.mpp rules/households/single.csv 1AJ 0 1000 0 --of TOTAL --csv; echo "status $?"
"$ROOT/tools/marginal" here.list rules/driver.mpp gone.csv 1AJ 0 1000 500 --of TOTAL --csv; echo "status $?"
"$ROOT/tools/marginal" here.list rules/driver.mpp rules/households/single.csv 1AJ 0 1000 500 --of NOPE --csv; echo "status $?"
mkfifo list driver
cat here.list >list &
cat rules/driver.mpp >driver &
"$ROOT/tools/marginal" list driver rules/households/single.csv 1AJ 20000 30000 10000 --of TOTAL --csv; echo "status $?"
# Where what is kept falls, before and after a reform: a tax below 61 isn't collected, so that at 19,041 60 less is kept, and with 100 in its place 99 less
# where the tax is 100. Two rule bases and two households by each other: a couple has two parts.
"$ROOT/tools/variant" here.list RECOUV=100 after > /dev/null
couple=rules/households/couple.csv
printf 'code,amount\n0AM,1\n1AJ,30000\n' > "$couple"
"$ROOT/tools/marginal" here.list rules/driver.mpp rules/households/single.csv 1AJ 19000 19400 1 --drops '1AJ - TOTAL' \
    --rules after/rules.list rules/driver.mpp; echo "status $?"
"$ROOT/tools/marginal" here.list rules/driver.mpp rules/households/single.csv 1AJ 20000 40000 10000 --of TOTAL \
    --rules after/rules.list rules/driver.mpp --household "$couple" --csv; echo "status $?"
"$ROOT/tools/marginal" here.list rules/driver.mpp rules/households/single.csv 1AJ 20000 40000 1000 --of TOTAL IINET \
    --rules after/rules.list rules/driver.mpp --household "$couple" > picture.svg; echo "status $?"
# The picture has a line for each, and its legend is below, in lines that are as wide as the picture.
python3 -c "
import xml.dom.minidom as m
d = m.parse('picture.svg')
texts = [one.firstChild.data for one in d.getElementsByTagName('text')]
print(len(d.getElementsByTagName('polyline')), max(map(len, texts)) < 110)
print(next(text for text in texts if text.startswith('TOTAL by after')))
height = int(d.documentElement.getAttribute('viewBox').split()[3])
print(all(float(one.getAttribute('y')) < height for one in d.getElementsByTagName('text')))"
"$ROOT/tools/marginal" here.list rules/driver.mpp rules/households/single.csv 1AJ 0 1000 500 --drops '1AJ * TOTAL'; echo "status $?"
