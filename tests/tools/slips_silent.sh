# What gives a wrong answer without a word: indexes past their table, cells and variables that nothing sets, kinds that no input has, copied lists, marks.
slips=$ROOT/tools/slips
printf 'iliad\na.m\n' >a.list
cat >a.m <<'END'
REV : saisie revenu avfisc = 1 avfisc = 2 alias 1AJ : "" ;
T : tableau[3] calculee restituee : "" ;
U : tableau[3] calculee : "" ;
V : tableau[2] calculee : "" ;
W : tableau[2] calculee : "" ;
A : calculee restituee : "" ; B : calculee : "" ; C : calculee : "" ; D : calculee : "" ; TOTA : calculee : "" ; TOTB : calculee : "" ;
regle 1 : application : iliad ;
T[X] = X ;
U[0] = 1 ;
A = T[3] + T[2] + somme(i=1..3: T[i] + T[i - 1]) + T[-1] + B ;
pour i = A,B : TOTi = T[REV] + somme(j=0,1: U[j]) ;
C = TOTA + TOTB + V[REV] ;
regle 2 : application : iliad ; enchaineur : c1 ;
B = T[9] ;
verif 3 : application : iliad ; si D > 0 alors erreur E ;
E : anomalie : "a" : "b" : "c" : "d" ;
END
"$slips" a.list
echo "status $?"
echo "-- with a driver"
printf 'main():\n  partition with avfisk = 1:\n    A <- call_m()\n  partition with avfisc = 2.0, 7:\n    B = exists(avfisc = 1)\n  D = 1\n  U[1] = 1\n' >d.mpp
"$slips" --driver d.mpp a.list | tail -n 6
printf 'main():\n  A = = 1\n' >bad.mpp
"$slips" --driver bad.mpp a.list
echo "status $?"
"$slips" --driver d.mpp
echo "status $?"
echo "-- a copied list, and one at the top"
mkdir one two
printf 'A : calculee restituee : "" ;\nregle 1 : application : iliad ; A = 1 ;\n' | tee one/b.m two/b.m >top.m
printf 'iliad\none/b.m\n' | tee one/rules.list two/rules.list >top.list
"$slips" one/rules.list
"$slips" two/rules.list
"$slips" top.list
echo "status $?"
echo "-- marks and carriage returns"
printf '\357\273\277iliad\r\ntwo/b.m\r\n' >mark.list
(printf '\357\273\277' && cat one/b.m) >two/b.m
printf '\357\273\277main():\r\n  A = 1\r\n' >mark.mpp
"$slips" --driver mark.mpp mark.list
printf 'A : calculee restituee : "" ; # a comment\rregle 1 : application : iliad ; A = 1 ;\r' >one/b.m
"$slips" top.list
echo "-- a file with a fault of its own"
printf 'A : calculee restituee : "" ;\nregle 1 : application : iliad ; A = 1 1 ;' >one/b.m
"$slips" top.list
echo "status $?"
