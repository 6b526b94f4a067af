IRN : calculee restituee : "n" ;
regle 10 : application : iliad ;
pour i = 1..10001 : IRN = 1 ;
