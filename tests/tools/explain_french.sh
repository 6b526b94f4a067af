# What to mend of rules, drivers and households in French, by --lang or by the machine's language; the program's line stays as it is. Every sentence of the
# table has both languages, with the same values in it.
printf 'REV : saisie alias 1AJ : "s" ;\nIRN : calculee restituee : "n" ;\nregle 10 : application : iliad ;\nIRN = REX ;\n' >a.m
line='refused a.m line 4 byte 103: unknown name REX'
printf 'iliad\na.m\n' >a.list
echo "$line" | "$ROOT/tools/explain" --lang fr --list a.list
echo "$line" | LC_MESSAGES=fr_FR.UTF-8 "$ROOT/tools/explain" --list a.list | tail -n 1
echo "$line" | LC_MESSAGES=fr_FR.UTF-8 "$ROOT/tools/explain" --lang en --list a.list | tail -n 1
echo "$line" | LC_MESSAGES=fr_FR.UTF-8 LC_ALL=C "$ROOT/tools/explain" --list a.list | tail -n 1
printf 'code,amount\n1AK,5\n' >h.csv
echo 'refused household line 2: unknown code' | "$ROOT/tools/explain" --lang fr --list a.list --household h.csv | tail -n 1
echo "$line" | "$ROOT/tools/explain" --lang de --list a.list; echo "status $?"
python3 - <<'P'
import os, re, sys
sys.path.insert(0, os.path.join(os.environ["ROOT"], "python"))
from vodmejka.texts import TEXTS
ALIKE = {"coverage.kind.branch", "coverage.rate", "doc.code", "doc.type"}  # the same in both languages
for key, (english, french) in TEXTS.items():
    if set(re.findall("{[a-z]+}", english)) != set(re.findall("{[a-z]+}", french)) or english == french and key not in ALIKE or not french:
        print(key)
print(len(TEXTS) >= 40)
P
# Lines that name no place, code files and marked files, in both languages.
for said in 'refused cycle A B' 'refused unknown code' 'refused code line 3: bad line' 'failed 7 E1 anomalie'; do
    echo "$said" | "$ROOT/tools/explain" --lang fr | tail -n 1
done
printf '\357\273\277iliad\na.m\n' >marked.list
echo 'refused list line 1' | "$ROOT/tools/explain" --lang fr --list marked.list | tail -n 1
echo 'refused unknown code' | "$ROOT/tools/explain" --lang en | tail -n 1
