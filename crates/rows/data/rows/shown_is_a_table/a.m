T : tableau[1] calculee : "" ; regle 1 : application : iliad ; T = 1 ;
