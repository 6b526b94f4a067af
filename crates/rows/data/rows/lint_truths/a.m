REV : saisie revenu classe = 0 alias 1AJ : "s" ;
SEUIL : const = 1000 ;
IRN : calculee restituee : "n" ;
B : saisie alias 1BB : "b" type BOOLEEN ;
regle 10 : application : iliad ;
IRN = REV + B ;
A20 : anomalie : "A" : "20" : "00" : "revenu nul" : "N" ;
verif 7 : application : iliad ; si B > 1 alors erreur A20 ;
verif 8 : application : iliad ; si B > 0 alors erreur A20 ;
