REV : saisie revenu classe = 0 alias 1AJ : "s" ;
SEUIL : const = 1000 ;
IRN : calculee restituee : "n" ;
B : saisie alias 1BB : "b" type BOOLEEN ;
regle 10 : application : iliad ;
IRN = (B + 0) > 1 ;
