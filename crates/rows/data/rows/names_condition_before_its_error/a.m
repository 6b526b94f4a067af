REV : saisie revenu classe = 0 alias 1AJ : "s" ;
SEUIL : const = 1000 ;
IRN : calculee restituee : "n" ;
regle 10 : application : iliad ;
IRN = 1 ;
verif 1 : application : iliad ; si OUBLI alors erreur A99 ;
