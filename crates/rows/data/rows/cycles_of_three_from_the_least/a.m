REV : saisie revenu classe = 0 alias 1AJ : "s" ;
SEUIL : const = 1000 ;
IRN : calculee restituee : "n" ;
TOT : calculee : "t" ;
SUM : calculee : "" ;
regle 10 : application : iliad ;
IRN = TOT ; SUM = IRN ; TOT = SUM ;
