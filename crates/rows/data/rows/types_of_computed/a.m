REV : saisie alias 1AJ : "s" ;
SEUIL : const = 1000 ;
IRN : calculee restituee : "n" type BOOLEEN ;
regle 10 : application : iliad ;
IRN = max(0, REV - SEUIL) ;
