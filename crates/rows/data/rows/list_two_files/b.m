TOT : calculee restituee : "t" ;
regle 1 : application : iliad ;
TOT = IRN * 2 ;
