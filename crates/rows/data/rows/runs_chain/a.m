
application iliad ;
REV : saisie revenu classe = 0 restituee alias 1AJ : "income" ;
DON : saisie penalite = -1.5 alias 7UF : "gifts" ;
TAUX : const = 0.333333 ;
PERTE : const = -1500 ;
VIDE : calculee base : "set by no rule that counts" ;
N01 : calculee : "" ;
N02 : calculee restituee : "" ;
N03 : calculee base restituee : "" ;
N04 : calculee restituee classe = 2 : "" ;
N05 : calculee restituee : "" ;
N06 : calculee restituee : "" ;
N07 : calculee restituee : "" ;
N08 : calculee restituee : "" ;
N09 : calculee restituee : "" ;
N10 : calculee restituee : "" ;
N11 : calculee restituee : "" ;
regle base 10 : application : iliad , autre ;
N01 = REV - DON ; # 2400.25
N02 = TAUX * 3 ; # 0.999999
N03 = N01 * N02 ; # 2400.24759975
regle 20 : application : autre ;
VIDE = 1 ;
regle 30 : application : autre , iliad ;
N04 = TAUX * 0.5 ; # 0.1666665
N05 = - TAUX * 0.5 ;
N06 = N04 + N05 ;
N07 = VIDE * N01 ;
N08 = N07 + PERTE ;
regle 40 : application : iliad ;
N09 = N08 - - DON * 2 ; # -1500 + 200.5
N10 = 10 - 3 - 2 - N06 ;
N11 = N07 - VIDE ;
IRN = N09 * -2 + N10 * N10 - N03 + N11 ; # 2599 + 25 - 2400.2476
IRN : calculee restituee : "" ;
