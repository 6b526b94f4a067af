REV : saisie revenu classe = 0 alias 1AJ : "s" ;
SEUIL : const = 1000 ;
IRN : calculee restituee : "n" ;
A : calculee : "a" ;
regle 10 : application : iliad ;
IRN = si REV > 0 alors 1 sinon A finsi ;
