XA : saisie revenu classe = 0 alias 2AA : "x" ;
B : calculee restituee : "b" ;
A01 : anomalie : "A" : "01" : "00" : "trop" ;
regle 10 : application : iliad ;
B = XA + 1 ;
verif 1 : application : iliad ;
si XA > 20 alors erreur A01 ;
si XA > 5 alors erreur A01 ;
