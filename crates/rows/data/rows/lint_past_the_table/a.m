REV : saisie revenu classe = 0 alias 1AJ : "s" ;
SEUIL : const = 1000 ;
IRN : calculee restituee : "n" ;
T : tableau[3] calculee : "t" ;
regle 10 : application : iliad ;
IRN = T[3] + T[1] + REV ;
T[1] = 3 ;
