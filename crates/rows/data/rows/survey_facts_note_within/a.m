REV : saisie revenu classe = 0 alias 1AJ : "s" ;
IRN : calculee restituee : "n" ;
regle 10 : application : iliad ;
IRN = REV + 1 ;
A01 : informative : "A" : "01" : "00" : "trop" : "N" ;
verif 1 : application : iliad ; si REV > 5000 alors erreur A01 ;
