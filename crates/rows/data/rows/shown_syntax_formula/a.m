A : const = 1 ; regle 1 : application : iliad ; A = ;
