REV : saisie revenu classe = 0 alias 1AJ : "s" ;
SEUIL : const = 1000 ;
IRN : calculee restituee : "n" ;
T : tableau[1] calculee : "" ;
regle 10 : application : iliad ;
IRN = 1 ; T[0] = T[-1] ;
