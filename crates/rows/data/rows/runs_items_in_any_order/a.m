regle 10 : application : iliad ;
IRN = max(0, REV - SEUIL) ;
IRN : calculee restituee : "n" ;
SEUIL : const = 1000 ;
REV : saisie alias 1AJ : "s" ;
