RA1 : calculee restituee : "" ;
RA2 : calculee restituee : "" ;
RB1 : calculee restituee : "" ;
RB2 : calculee restituee : "" ;
regle 1 : application : iliad ;
pour un i dans (A..B) et un j dans 1,2 : Rij = j ;
