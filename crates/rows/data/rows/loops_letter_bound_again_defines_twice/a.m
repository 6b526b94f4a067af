UA : calculee : "" ;
UB : calculee : "" ;
regle 1 : application : iliad ;
pour i = 1..2 : pour i = A,B : Ui = 1 ;
