REV : saisie revenu classe = 0 alias 1AJ : "s" ;
SEUIL : const = 1000 ;
IRN : calculee restituee : "n" ;
AZA : saisie alias 2A1 : "" ;
regle 10 : application : iliad ;
IRN = somme(i=A..A: iZi) ;
