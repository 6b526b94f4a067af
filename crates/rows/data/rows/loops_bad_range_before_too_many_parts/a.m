REV : saisie revenu classe = 0 alias 1AJ : "s" ;
SEUIL : const = 1000 ;
IRN : calculee restituee : "n" ;
TOT : calculee : "" ;
regle 10 : application : iliad ;
IRN = somme(i=1..100;j=1..100: REV + REV + REV + REV + REV + REV + REV + REV + REV + REV + REV + REV + REV + REV + REV + REV + REV + REV + REV + REV + REV + REV + REV + REV + REV + REV + REV + REV + REV + REV + REV + REV + REV + REV + REV + REV + REV + REV + REV + REV + REV + REV + REV + REV + REV + REV + REV + REV + REV + REV + REV + REV + REV + REV + REV + REV + REV + REV + REV + REV + REV + REV + REV + REV + REV + REV + REV + REV + REV + REV + REV + REV + REV + REV + REV + REV + REV + REV + REV + REV + REV + REV + REV + REV + REV + REV + REV + REV + REV + REV + REV + REV + REV + REV + REV + REV + REV + REV + REV + REV) ;
regle 11 : application : iliad ;
TOT = somme(i=2..1: 1) ;
