REV : saisie revenu classe = 0 alias 1AJ : "s" ;
SEUIL : const = 1000 ;
IRN : calculee restituee : "n" ;
T : tableau[3] calculee : "t" ;
A : calculee : "a" ;
regle 10 : application : iliad ;
IRN = T[A] ; T[X] = X + 5 ; A = REV - 1 ;
