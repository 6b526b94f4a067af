regle 1 : application : iliad ; A = somme(i=2..1: i) ;
