TOT : calculee : "" ;
regle 1 : application : iliad ;
TOT = 1 + OUBLI ;
