REV : saisie alias 1AJ : "s" ;
A : calculee : "a" ;
B : calculee : "b" ;
C : calculee : "c" ;
D : calculee : "d" ;
T : tableau[3] calculee : "t" ;
regle 10 : application : iliad ;
A = T[1.9] ; T[1] = B ; B = T[(2)] ; T[2] = A ;
