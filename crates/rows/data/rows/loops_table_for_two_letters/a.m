TV : tableau[2] calculee restituee : "" ;
TC : tableau[2] calculee restituee : "" ;
regle 1 : application : iliad ;
pour i = V,C : Ti[X] = X * 2 ;
