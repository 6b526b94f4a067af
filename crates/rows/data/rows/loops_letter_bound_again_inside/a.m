V1 : const = 1 ;
V2 : const = 20 ;
WA : const = 300 ;
UA : calculee restituee : "" ;
regle 1 : application : iliad ;
pour i = 7 : pour i = A : Ui = somme(i=1,2: Vi) + Wi ;
