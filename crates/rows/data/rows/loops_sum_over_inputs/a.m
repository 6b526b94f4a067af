REV : saisie revenu classe = 0 alias 1AJ : "s" ;
SEUIL : const = 1000 ;
IRN : calculee restituee : "n" ;
C08 : saisie alias 2AA : "" ;
C09 : saisie alias 2AB : "" ;
C10 : saisie alias 2AC : "" ;
regle 10 : application : iliad ;
IRN = somme(i=08..10: Ci) ;
