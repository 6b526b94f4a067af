U12 : const = 4 ;
IRN : calculee restituee : "n" ;
regle 10 : application : iliad ;
IRN = 1 ;
A20 : anomalie : "A" : "20" : "00" : "t" : "N" ;
verif 1 : application : iliad ; si somme(i=1: somme(j=2: Uij)) > 3 alors erreur A20 ;
