regle 1 : application : iliad ; A = somme(i=1..1001: somme(j=1..1000: 1)) ;
