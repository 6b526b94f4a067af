REV : saisie revenu classe = 0 alias 1AJ : "s" ;
SEUIL : const = 1000 ;
T : tableau[3] calculee restituee : "" ;
IRN : calculee restituee : "n" ;
regle 10 : application : iliad ;
T[2] = 3 ; T[00] = 1 ;
IRN = T[0] + T[2] ;
