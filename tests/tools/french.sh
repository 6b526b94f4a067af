# slips and what a reading of rules and drivers can't take, in French; FILE line L byte B stays as it is, for programs that read it. What is the same in both
# languages, apart from the words, is reported at the same places.
cat >a.m <<'M'
REV : saisie revenu avfisk = 1 alias 1AJ : "s" type REELLE ;
SEUIL : const = 1000 ;
VIDE : const = 7 ;
T : tableau[8] calculee : "t" ;
IRN : calculee restituee : "n" ;
NUL : calculee restitue : "jamais lue" ;
SORTIE : calculee restituee : "jamais calculée" ;
NOMBRE : calculee restituee = 3 : "un nombre" ;
A20 : anomalie : "A" : "20" : "00" : "toujours" : "N" ;
A21 : anomalie : "A" : "21" : "00" : "jamais levée" : "N" ;
regle 10 : application : iliad ;
IRN = REV - SEUIL + T[9] ;
T[1] = 3 ;
regle 10 : application : batch , iliad ;
pour i = 1,2 : NUL = somme(i = 1,2 : REV * i) ;
verif 20 : application : iliad ;
si SEUIL > 3 alors erreur A20 ;
verif 20 : application : iliad ;
si REV > SEUIL alors erreur A20 ;
M
printf 'iliad\na.m\n' >a.list
printf 'main():\n  partition with avfisk = 2:\n    T[0] <- call_m()\n' >d.mpp
echo "-- slips"
"$ROOT/tools/slips" --lang fr --driver d.mpp a.list; echo "statut $?"
places() { sed 's/\([^:]*:\).*/\1/'; }
"$ROOT/tools/slips" --driver d.mpp a.list | places >english
LC_MESSAGES=fr_FR.UTF-8 "$ROOT/tools/slips" --driver d.mpp a.list | places | diff english - >differing; grep -c '^[<>] slip [A-Za-z0-9_./-]* line' differing
"$ROOT/tools/slips" --lang fr; echo "statut $?"
printf 'IRN : calculee : "n" ;\rregle 1 : application : autre ; IRN = 1 ;\n' >c.m
printf '\357\273\277iliad\nc.m\n' >marked.list
"$ROOT/tools/slips" --lang fr marked.list
mkdir folder && mv marked.list folder && "$ROOT/tools/slips" --lang fr folder/marked.list | grep 'ses fichiers'
printf 'iliad\nb.m\n' >b.list && echo 'IRN = = ;' >b.m && "$ROOT/tools/slips" --lang fr b.list; echo "statut $?"
echo "-- tokens that can't stand there"
while IFS= read -r line; do
    printf 'REV : saisie revenu alias 1AJ : "s" ;\nIRN : calculee restituee : "n" ;\nregle 10 : application : iliad ;\n%s\n' "$line" >b.m
    printf 'iliad\nb.m\n' >b.list
    "$ROOT/tools/explain" --lang fr --all b.list 2>/dev/null | tail -n 1
done <<'M'
IRN = max(0, REV, 5) ;
IRN = 1,5 ;
IRN = REV ≥ 3 ;
IRN = arrondi(REV) ;
IRN = REV => 3 ;
IRN = REV // 3 ;
IRN = ET ;
IRN = si REV > 3 alors 1 ;
IRN = (REV + 3 ;
IRN = regle ;
IRN : tableau 3 calculee : "n" ;
M
echo "-- a driver"
for line in '  IRN = 1,5' 'IRN = 1' '  if IRN = 3:' '  IRN < - call_m()' '    IRN = 1' '  partition with 3:'; do
    printf 'main():\n  IRN = 2\n%s\n' "$line" >d.mpp
    "$ROOT/tools/explain" --lang fr --all a.list d.mpp 2>/dev/null | tail -n 1
done
echo "-- lists, requests, conditions of a driver, files that are gone"
printf 'iliad\nb.m\nx\377\n' >c.list
for line in 'refused list line 1' 'refused list line 3' 'refused requests line 2' 'over driver line 2' 'refused nowhere.m line 3 byte 9: syntax' \
    'refused b.m line 3 byte 9: syntax'; do
    echo "$line" | "$ROOT/tools/explain" --lang fr --list c.list --driver d.mpp | tail -n 2
done
"$ROOT/tools/explain" --lang fr --all --mode b.list; echo "statut $?"
