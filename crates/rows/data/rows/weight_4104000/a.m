REV : saisie revenu classe = 0 alias 1AJ : "s" ;
SEUIL : const = 1000 ;
IRN : calculee restituee : "n" ;
T : tableau[1024] calculee : "" ;
regle 10 : application : iliad ;
IRN = somme(i=1..2000: T[REV]) ;
