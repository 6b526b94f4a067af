REVV : saisie alias 1AV : "v" ;
REVC : saisie alias 1AC : "c" ;
TOTV : calculee restituee : "t" ;
TOTC : calculee restituee : "t" ;
regle 1 : application : iliad ;
pour i = V,C : TOTi = REVi + 1 ;
