REV : saisie revenu classe = 0 priorite = -10 alias 1AJ : "s" type REEL ;
SEUIL : const = 1000 ;
IRN : calculee base restituee nature = 1 : "n" type ENTIER ;
regle corrective primitif 10 : application : batch , iliad ;
IRN = max(0, REV - SEUIL) ;
