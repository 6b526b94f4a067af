# Rents of two flats each of two persons, a table of rates, and a verification. The figures are invented.
application iliad ;

LOYA1 : saisie revenu alias 4A1 : "rent of the first flat of person A" ;
LOYA2 : saisie revenu alias 4A2 : "rent of the second flat of person A" ;
LOYB1 : saisie revenu alias 4B1 : "rent of the first flat of person B" ;
LOYB2 : saisie revenu alias 4B2 : "rent of the second flat of person B" ;

FORF : const = 0.3 ;

TOTA : calculee : "rents of person A" ;
TOTB : calculee : "rents of person B" ;
NETA : calculee restituee : "net rents of person A" ;
NETB : calculee restituee : "net rents of person B" ;
REV : calculee restituee : "net rents of both" ;
TRANCHE : calculee restituee : "the number of the bracket" ;
TAUX : tableau[4] calculee : "the rate of each bracket" ;
IMPOT : calculee restituee : "the tax" ;

regle 30 : application : iliad ;          # read before it is written
IMPOT = arr(REV * TAUX[TRANCHE]) ;

regle 20 : application : iliad ;
TAUX[X] = X * 0.05 ;                      # 0, 0.05, 0.1, 0.15
TRANCHE = (REV > 5000) + (REV > 10000) + (REV > 20000) ;

regle 10 : application : iliad ;
pour i = A,B : TOTi = somme(j=1..2: LOYij) ;
pour i = A,B : NETi = TOTi - TOTi * FORF ;
REV = somme(i=A,B: NETi) ;

E01 : anomalie : "E" : "01" : "00" : "a rent below 0" ;
verif 1 : application : iliad ;
si LOYA1 < 0 ou LOYA2 < 0 ou LOYB1 < 0 ou LOYB2 < 0 alors erreur E01 ;
