REV : saisie alias 1AJ : "r" ;
A : calculee restituee : "a" ;
T : tableau[1024] calculee : "t" ;
U : tableau[929] calculee : "u" ;
