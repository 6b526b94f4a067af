SV1 : calculee restituee : "" ;
SV2 : calculee restituee : "" ;
SC1 : calculee restituee : "" ;
SC2 : calculee restituee : "" ;
P : calculee restituee : "" ;
regle 1 : application : iliad ;
pour un i dans (V,C) et un j dans 1..2 : Sij = j ;
P = somme(i=1..3,4: i) ;
