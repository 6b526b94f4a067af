REVV : saisie alias 1AV : "v" ;
TOTV : calculee restituee : "t" ;
TOTC : calculee restituee : "t" ;
regle 1 : application : iliad ;
pour i = V,C : TOTi = REVi + 1 ;
