A : calculee : "" ; regle 1 : application : iliad ; A = 1 ; A = 1 ;
