regle 1 : application : iliad ; A = somme(i=1..10001: i) ;
