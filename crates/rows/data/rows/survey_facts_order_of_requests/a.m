XA : saisie revenu classe = 0 alias 1AJ : "x" ;
YB : saisie revenu classe = 0 alias 2AA : "y" ;
A : calculee restituee : "a" ;
B : calculee restituee : "b" ;
regle 1 : application : iliad ;
A = XA ;
B = YB ;
