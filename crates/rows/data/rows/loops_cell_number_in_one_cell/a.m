REV : saisie revenu classe = 0 alias 1AJ : "s" ;
SEUIL : const = 1000 ;
IRN : calculee restituee : "n" ;
T : tableau[3] calculee : "t" ;
regle 10 : application : iliad ;
IRN = 0 ; T[2] = X ;
