REV : saisie revenu avfisc = 1 alias 1AJ : "s" ;
SEUIL : const = 1000 ;
IRN : calculee restituee : "n" ;
B0 : calculee : "b" ;
regle 10 : application : iliad ;
IRN = max(0, REV - SEUIL) ;
