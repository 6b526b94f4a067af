A : calculee : "" ; regle 1 : application : iliad ; A[0] = 1 ;
