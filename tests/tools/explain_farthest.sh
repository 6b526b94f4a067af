# The token at which a refused item or line can't go on, and what could be there: rules and drivers; marks and carriage returns; places for editors.
explain=$ROOT/tools/explain
RULE='regle 1 : application : iliad ; '
for formula in 'A = 1\nB = 2 ;' 'A = (1 + 2 ;' 'A = si B == 1 alors 2 finsi ;' 'A = 0,30 ;' 'A = max(1,2,3) ;' 'A = max(1) ;' \
    'A = si B alors 1 ;' 'A = multimax(1, B) ;' 'A == 1 ;' 'A = si alors 1 finsi ;' 'A = ;'; do
    printf "$RULE$formula" >a.m
    printf 'refused a.m line 1 byte 0: syntax\n' | "$explain" | tail -n 3
done
echo "-- other items"
for item in 'A = 1 ;' 'a : const = 1 ;' 'A : saisie : "" ;' 'E : anomalie : "a" : "b" ;' 'regle 1 : iliad ; A = 1 ;' \
    'verif 1 : application : iliad ; si A alors erreur ;'; do
    printf '%s' "$item" >a.m
    printf 'refused a.m line 1 byte 0: syntax\n' | "$explain"
done
echo "-- drivers"
for line in 'A = 1 +' 'A = 0,30' 'if A = 1:\n    A = 1' 'if A\n    A = 1' 'A < - f()' 'A <- f(1)' 'A = f()' 'A = (1' 'f()' \
    'partition with avfisc:\n    A = 1' 'else:\n    A = 1' 'if A:\n  A = 1' 'A = 1\n   A = 1' 'if A:\n    A = 1\n   A = 1' \
    'if A:\n    A = 1\n  else:\n  A = 1'; do
    printf "main():\n  $line\n" >d.mpp
    printf 'refused driver line 1: syntax\n' | "$explain" --driver d.mpp | tail -n +4
done
printf 'main():\n  A = 1\n  B = \303\251\n' >d.mpp
printf 'refused driver line 3: bad token\n' | "$explain" --driver d.mpp
echo "-- marks and carriage returns"
printf '\357\273\277A : const = 1 ;\n' >a.m
printf 'refused a.m line 1 byte 0: bad byte\n' | "$explain" | tail -n 1
printf '\357\273\277iliad\na.m\n' >a.list
printf 'refused list line 1\n' | "$explain" --list a.list | tail -n 1
printf '\357\273\277main():\n  A = 1\n' >d.mpp
printf 'refused driver line 1: bad token\n' | "$explain" --driver d.mpp | tail -n 1
printf '\357\273\277IRN\n' >r.txt
printf 'refused requests line 1\n' | "$explain" --requests r.txt | tail -n 1
printf 'iliad\ra.m\r' >a.list
printf 'refused list line 1\n' | "$explain" --list a.list | tail -n 1
echo "-- places"
printf "$RULE"'A = max(1,2,3) ;' >a.m
printf 'refused a.m line 1 byte 0: syntax\n' | "$explain" --places
echo "-- all faults"
cat >a.m <<'END'
A : calculee : "" ;
B : calculee : "" 
C : const = 1,5 ;
regle 1 : application : iliad ;
A = max(1, 2, 3) ;
B = si A == 1 alors 2 finsi ;
C = \351 + 1 ;
verif 1 : application : iliad ; si A > 0 erreur E ;
END
printf 'iliad\na.m\nb.m\n' >a.list
printf 'D : const = 1 ;\nregle 2 : application : iliad ; D = (1 ;\n' >b.m
printf 'main():\n  A = = 1\n  B <- f(\n' >d.mpp
"$explain" --all a.list d.mpp
echo "status $?"
printf 'refused a.m line 2 byte 20: syntax\n' | "$explain" --all --list a.list --driver d.mpp --places
echo "-- all faults of names"
cat >a.m <<'END'
A : calculee : "" ; A : const = 1 ;
REV : saisie alias 1AJ : "" ; REV2 : saisie alias 1AJ : "" ;
T : tableau[2] calculee : "" ;
regle 1 : application : iliad ;
A = REVV + T + A[1] + somme(i=1..2: TOTi + i) + Rx ;
REV = 1 ;
T[X] = 1 ;
T[1] = 2 ;
T[2] = 3 ;
regle 2 : application : other ; A = NOTHING ;
verif 1 : application : iliad ; si A > 0 alors erreur E ;
END
printf 'K : const = 1 ;\n' >b.m
printf 'main():\n  A = REVV\n  K = 1\n  T[5] = 1\n  A <- f()\ncall_m():\n  A = T\n' >d.mpp
"$explain" --all a.list d.mpp | grep fault
"$explain" --all nowhere.list
echo "status $?"
printf 'A : calculee restituee : "" ;\nregle 1 : application : iliad ; A = 1 ;\n' >a.m
"$explain" --all a.list
echo "status $?"
"$explain" --all a.list d.mpp more
echo "status $?"
