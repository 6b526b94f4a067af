REV : saisie alias 1AJ : "r" ;
IRN : calculee restituee : "i" ;
regle 10 : application : iliad ;
IRN = REV ;
