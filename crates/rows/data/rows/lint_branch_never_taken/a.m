REV : saisie revenu classe = 0 alias 1AJ : "s" ;
SEUIL : const = 1000 ;
IRN : calculee restituee : "n" ;
U : calculee : "u" ;
regle 10 : application : iliad ;
IRN = si 1 > 0 alors 3 sinon REV + U finsi ;
