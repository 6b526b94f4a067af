REV : saisie revenu classe = 0 alias 1AJ : "s" ;
IRN : calculee restituee : "n" ;
B : calculee restituee : "b" ;
regle 10 : application : iliad ;
IRN = REV * 2 ;
B = REV * REV * REV ;
