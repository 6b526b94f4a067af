REV : saisie revenu classe = 0 alias 1AJ : "s" ;
IRN : calculee restituee : "n" ;
B : calculee restituee : "b" ;
regle 10 : application : iliad ;
IRN = REV * 2 ;
B = REV * REV * REV ;
A20 : anomalie : "A" : "20" : "00" : "r" : "N" ;
verif 2000 : application : iliad ; si REV > 1 alors erreur A20 ;
