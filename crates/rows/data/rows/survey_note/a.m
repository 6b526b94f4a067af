REV : saisie revenu classe = 0 alias 1AJ : "s" ;
SEUIL : const = 1000 ;
IRN : calculee restituee : "n" ;
regle 10 : application : iliad ;
IRN = max(0, REV - SEUIL) ;
A20 : discordance : "A" : "20" : "00" : "revenu nul" : "N" ;
verif 2000 : application : iliad ; si IRN < 5000 alors erreur A20 ;
