A : calculee : "" ; regle 1 : application : iliad ; A = A ;
