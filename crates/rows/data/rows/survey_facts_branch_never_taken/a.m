XA : saisie revenu classe = 0 alias 2AA : "x" ;
YB : saisie revenu classe = 0 alias 1AJ : "y" ;
ZC : saisie revenu classe = 0 alias 3ZZ : "z" ;
R : calculee restituee : "r" ;
regle 1 : application : iliad ;
R = si ZC > 0 alors XA sinon YB finsi ;
