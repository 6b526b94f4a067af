REV : saisie revenu classe = 0 alias 1AJ : "s" ;
IRN : calculee restituee : "n" ;
BASE : calculee restituee : "b" ;
regle 10 : application : iliad ;
IRN = REV - 1000 ;
BASE = REV + 1 ;
A20 : informative : "A" : "20" : "00" : "revenu" : "N" ;
verif 2000 : application : iliad ; si REV > 100 alors erreur A20 ;
