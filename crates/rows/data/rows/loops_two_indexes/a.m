RA1 : calculee restituee : "" ;
RA2 : calculee restituee : "" ;
RB1 : calculee restituee : "" ;
RB2 : calculee restituee : "" ;
regle 1 : application : iliad ;
pour i = A,B ; j = 1..2 : Rij = j ;
