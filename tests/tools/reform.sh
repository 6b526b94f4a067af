# needs the program
# A threshold of 1,000 that becomes 2,000, and four households with weights. By hand: dupont's 2,500 pay 1,500 and then 500, martin's 500 nothing,
# durand's 1,500 pay 500 and then nothing, leroy's run stops. Before 2 * 1,500 + 0.5 * 500, after 2 * 500; the difference of -2,250 over the
# weight 3.5 that was computed is -642.857143. With 1,000 more dupont pays 2,500 and 1,500, martin 500 and 0, durand 1,500 and 500.
printf 'iliad\na.m\n' > before.list
cat > a.m <<'M'
REV : saisie revenu classe = 0 alias 1AJ : "s" ;
SEUIL : const = 1000 ;
IRN : calculee restituee : "n" ;
regle 10 : application : iliad ;
IRN = max(0, REV - SEUIL) ;
A20 : anomalie : "A" : "20" : "00" : "below 0" : "N" ;
verif 2000 : application : iliad ;
si REV < 0 alors erreur A20 ;
M
printf 'name,1AJ,poids,age\ndupont,2500,2,40\nmartin,500,1,30\ndurand,1500,0.5,50\nleroy,-1,1,20\n' > table.csv
"$ROOT/tools/variant" before.list SEUIL=2000 after
"$ROOT/tools/reform" before.list after/rules.list - - table.csv --of IRN --weight poids --by age --step 1AJ=1000 --into report; echo "status $?"
cat report/households.csv
cut -d, -f 1-15 report/summary.csv
# Each line of the summary and the page name the rules before and after and the program by their digests.
cut -d, -f 16- report/summary.csv | sort -u | sed -E 's/[0-9a-f]{64}/DIGEST/g'
sed 1d report/summary.csv | cut -d, -f 16- | sort -u | tr , '\n' | while read -r digest; do grep -c "<code>$digest</code>" report/report.html; done
python3 - <<'P'
import html.parser
class Page(html.parser.HTMLParser):
    seen, at = {}, None
    def handle_starttag(self, tag, attributes): self.at = dict(attributes).get("id")
    def handle_data(self, data):
        if self.at: self.seen[self.at] = data
        self.at = None
page = Page()
text = open("report/report.html", encoding="utf-8").read()
page.feed(text)
print(page.seen, text.count("<svg"), "http" in text, "<script" in text)
P
"$ROOT/tools/reform" before.list after/rules.list - - table.csv --of IRN --weight poids --by age --into report; echo "status $?"
"$ROOT/tools/reform" before.list after/rules.list - - table.csv --of IRN --into other; echo "status $?"
"$ROOT/tools/reform" before.list after/rules.list - - table.csv --of IRS --weight poids --by age --into other; echo "status $?"
"$ROOT/tools/reform" before.list gone.list - - table.csv --of IRN --into other; echo "status $?"
printf 'name,1AJ\ndupont,x\n' > bad.csv
"$ROOT/tools/reform" before.list after/rules.list - - bad.csv --of IRN --into other; echo "status $?"
printf 'name,1AJ\ndupont,1,2\n' > bad.csv
"$ROOT/tools/reform" before.list after/rules.list - - bad.csv --of IRN --into other; echo "status $?"
printf 'name,1AJ\n' > bad.csv
"$ROOT/tools/reform" before.list after/rules.list - - bad.csv --of IRN --into other; echo "status $?"
printf 'name;1AJ\na;1\n' > bad.csv
"$ROOT/tools/reform" before.list after/rules.list - - bad.csv --of IRN --into other; echo "status $?"
printf '"\n' >open.m
printf 'iliad\nopen.m\n' >open.list
"$ROOT/tools/reform" before.list open.list - - table.csv --of IRN --into other; echo "status $?"
# Groups by a column; a sum with half of a value; the inputs; texts that a spreadsheet would compute. With the threshold of 2,000 3,000 pay 1,000, 4,000 pay
# 2,000 and 2,500 pay 500, and by the driver after half of that. What is kept of 1AJ with half of it off: 2,500, 3,000 and 2,250, then 2,750, 3,500 and 2,375.
printf 'name,1AJ,dep\n=a,3000,+x\nb,4000,y\nc,2500,y\n' >groups.csv
cat >half.mpp <<'D'
main():
  IRN <- call_m()
  IRN = IRN * 0.5
D
"$ROOT/tools/reform" after/rules.list after/rules.list - - groups.csv --of '1AJ - 0.5 * IRN' --groups dep --inputs \
    --driver-after half.mpp --more-is-gain --into groups
echo "status $?"
cat groups/households.csv
cut -d, -f 1-15 groups/summary.csv
ls -A
