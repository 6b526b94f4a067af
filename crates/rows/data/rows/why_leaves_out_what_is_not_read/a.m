REV : saisie revenu classe = 0 alias 1AJ : "s" ;
A : calculee : "a" ;
B : calculee : "b" ;
C : calculee restituee : "c" ;
regle 10 : application : iliad ;
C = B + 1 ;
B = A * 2 ;
A = REV + 1 ;
