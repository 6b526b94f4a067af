IRN : calculee restituee : "n" ;
regle 10 : application : iliad ;
IRN = NOM ;
