REV : saisie revenu classe = 0 alias 1AJ : "s" ;
SEUIL : const = 1000 ;
IRN : calculee restituee : "n" ;
TOT : calculee : "t" ;
regle 10 : application : iliad ;
IRN = TOT ; TOT = IRN + 1 ;
