A : calculee restituee : "" ; B : calculee : "" ; regle 1 : application : iliad ; A = B * 2 ; B = 3 ;
