REV : saisie revenu classe = 0 alias 1AJ : "s" ;
SEUIL : const = 1000 ;
IRN : calculee restituee : "n" ;
T : tableau[3] calculee : "t" ;
regle 10 : application : iliad ;
IRN = 0 ;
A20 : anomalie : "A" : "20" : "00" : "t" ;
verif 1 : application : iliad ; si T[X] alors erreur A20 ;
