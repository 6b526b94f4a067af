REV : saisie revenu classe = 0 alias 1AJ : "s" ;
SEUIL : const = 1000 ;
IRN : calculee restituee : "n" ;
T : tableau[3] calculee : "t" ;
U : tableau[3] calculee : "never set" ;
A : calculee : "" ;
B : calculee : "" ;
C : calculee : "" ;
V01 : calculee : "" ;
V02 : calculee : "" ;
V03 : calculee : "" ;
V04 : calculee : "" ;
V05 : calculee : "" ;
V06 : calculee : "" ;
V07 : calculee : "" ;
V08 : calculee : "" ;
regle 10 : application : iliad ;
A = REV - 1 ; # 1
B = REV + 1 ; # past the table
C = REV - 3 ; # below 0
T[X] = X + 5 ;
V01 = T[A] ;
V02 = T[B] ;
V03 = T[C] ;
V04 = T[1] ; # reads that cell alone
V05 = T[3] ; # reads no cell
V06 = U[A] + U[A] ;
V07 = si REV > 0 alors 1 sinon U[2] finsi ;
V08 = -1000.000001 ;
