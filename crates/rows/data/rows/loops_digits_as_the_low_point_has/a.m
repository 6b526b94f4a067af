REV : saisie revenu classe = 0 alias 1AJ : "s" ;
SEUIL : const = 1000 ;
IRN : calculee restituee : "n" ;
C098 : saisie alias 2A1 : "" ;
C099 : saisie alias 2A2 : "" ;
C100 : saisie alias 2A3 : "" ;
regle 10 : application : iliad ;
IRN = somme(i=098..100: Ci) ;
