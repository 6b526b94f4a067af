REV : saisie revenu classe = 0 alias 1AJ : "s" ;
SEUIL : const = 10 ;
IRN : calculee restituee : "n" ;
regle 10 : application : iliad ;
IRN = present(SEUIL) * 5 ;
