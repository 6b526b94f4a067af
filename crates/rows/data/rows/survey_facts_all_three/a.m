REV : saisie revenu classe = 0 alias 1AJ : "s" ;
B : calculee restituee : "b" ;
regle 10 : application : iliad ;
B = REV * 2 ;
