REV : saisie revenu classe = 0 alias 1AJ : "s" ;
SEUIL : const = 1000 ;
IRN : calculee restituee : "n" ;
regle 10 : application : iliad ;
IRN = max(0, REV - SEUIL) ;
E : anomalie : "E" : "1" : "0" : "too much" ;
verif 1 : application : iliad ; si REV > 2000 alors erreur E ;
