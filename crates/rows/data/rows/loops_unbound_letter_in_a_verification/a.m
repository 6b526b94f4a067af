REV : saisie revenu classe = 0 alias 1AJ : "s" ;
SEUIL : const = 1000 ;
IRN : calculee restituee : "n" ;
regle 10 : application : iliad ;
IRN = 0 ;
A20 : anomalie : "A" : "20" : "00" : "t" ;
verif 1 : application : iliad ; si REVk > 1 alors erreur A20 ;
