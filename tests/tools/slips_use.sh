# What is declared and not used, or used otherwise than was meant; and a base that has none of it.
cat >a.m <<'M'
REV : saisie revenu classe = 0 alias 1AJ : "s" type REELLE ;
ENF : saisie revenu classe = 0 alias 0CF : "s" type ENTIER ;
SEUIL : const = 1000 ;
VIEUX : const = -5 ;
ALT : const = 1 ;
IRN : calculee restituee : "n" ;
NET : calculee restitue : "n" type BOOLEAN ;
SOLDE : calculee restituee : "n" ;
VIDE : calculee : "n" ;
AIDE : calculee restituee : "n" ;
T1 : calculee : "n" ;
T2 : calculee : "n" ;
A20 : anomalie : "A" : "20" : "00" : "t" ;
A21 : anomalie : "A" : "21" : "00" : "t" ;
D22 : discordance : "D" : "22" : "00" : "t" ;
regle 10 : application : iliad ;
IRN = REV - SEUIL + T1 + T2 + ENF ;
regle 010 : application : iliad ;
NET = IRN ;
AIDE = IRN ;
regle 10 : application : batch ;
VIDE = 1 ;
regle 11 : application : iliad ;
pour i = 1,2 :
Ti = somme(i = 1..2 : REV) ;
verif 5 : application : iliad ;
si ALT * 2 = 2 et 1 < 2 alors erreur A20 ;
si REV > 5 ou 1 = 1 alors erreur A20 ;
si 1 = 1 alors erreur D22 ;
verif 5 : application : iliad ;
si VIEUX > ALT alors erreur A20 ;
M
printf 'iliad\na.m\n' >a.list
printf 'batch\na.m\n' >b.list
printf 'main():\n  IRN <- call_m()\n' >driver.mpp
"$ROOT/tools/slips" --driver driver.mpp a.list b.list; echo "status $?"
"$ROOT/tools/slips" --driver - a.list b.list | grep receives; echo "status $?"
# The driver reads and receives; another application's verification has the error.
cat >b.m <<'M'
REV : saisie revenu classe = 0 alias 1AJ : "s" ;
SEUIL : const = 1000 ;
IRN : calculee restituee : "n" ;
GAIN : calculee restituee : "n" ;
A20 : anomalie : "A" : "20" : "00" : "t" ;
regle 10 : application : iliad ;
IRN = REV ;
verif 10 : application : iliad ;
si REV < 0 alors erreur A20 ;
M
printf 'iliad\nb.m\n' >c.list
printf 'main():\n  IRN <- call_m()\n  GAIN = IRN - SEUIL\n' >driver.mpp
"$ROOT/tools/slips" --driver driver.mpp c.list; echo "status $?"
