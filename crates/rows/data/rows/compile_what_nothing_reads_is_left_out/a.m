REV : saisie revenu classe = 0 alias 1AJ : "s" ;
OTHER : calculee : "x" ;
IRN : calculee restituee : "n" ;
regle 10 : application : iliad ;
OTHER = REV + 1 ;
IRN = REV ;
