REV : saisie revenu classe = 0 alias 1AJ : "s" ;
SEUIL : const = 1000 ;
IRN : calculee restituee : "n" ;
A : calculee : "a" ;
B : calculee : "b" ;
regle 10 : application : iliad ;
IRN = A + B ; A = B + SEUIL ; B = REV * 2 ;
