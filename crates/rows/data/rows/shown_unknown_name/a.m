regle 1 : application : iliad ; A = 1 ;
