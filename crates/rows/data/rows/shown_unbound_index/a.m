regle 1 : application : iliad ; Ai = 1 ;
