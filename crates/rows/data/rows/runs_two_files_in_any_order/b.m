TOT : calculee : "t" ;
regle 1 : application : iliad ;
TOT = REV ;
