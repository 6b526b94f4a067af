REV : saisie revenu classe = 0 alias 1AJ : "s" ;
IRN : calculee restituee : "n" ;
regle 10 : application : iliad ;
IRN = REV ;
A20 : anomalie : "A" : "20" : "00" : "revenu" : "N" ;
verif 2000 : application : iliad ; si REV > 100 alors erreur A20 ;
