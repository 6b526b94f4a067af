# needs the program
# What slips counts as read and never set, lint names with the words that slips prints, by cell: V is read at an amount, so at any cell, and T[3] is none.
printf 'iliad\na.m\n' >a.list
cat >a.m <<'END'
REV : saisie revenu classe = 0 alias 1AJ : "" ;
T : tableau[3] calculee : "" ; U : tableau[3] calculee : "" ; V : tableau[2] calculee : "" ;
A : calculee restituee : "" ; B : calculee : "" ; D : calculee : "" ; N : calculee : "" ;
regle 1 : application : iliad ;
T[X] = X ;
U[0] = 1 ;
A = T[3] + T[2] + somme(j=0,1: U[j]) + V[REV] + B ;
verif 3 : application : iliad ; si D > 0 alors erreur E ;
E : anomalie : "a" : "b" : "c" : "d" ;
END
"$ROOT/tools/slips" a.list | tee told
$(sed -n 's/.*; m_tax \(lint .*\) names them/\1/p' told | sed "s,^,$M_TAX ,") | grep '^never defined'
