REV : saisie alias 1AJ : "s" ;
A : calculee : "a" ;
B : calculee : "b" ;
C : calculee : "c" ;
D : calculee : "d" ;
T : tableau[3] calculee : "t" ;
regle 10 : application : iliad ;
A = B ; D = T[C] ; C = 0 * B ; B = D + REV ;
