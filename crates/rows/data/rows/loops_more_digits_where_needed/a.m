REV : saisie revenu classe = 0 alias 1AJ : "s" ;
SEUIL : const = 1000 ;
IRN : calculee restituee : "n" ;
C8 : saisie alias 2A1 : "" ;
C9 : saisie alias 2A2 : "" ;
C10 : saisie alias 2A3 : "" ;
regle 10 : application : iliad ;
IRN = somme(i=8..10: Ci) ;
