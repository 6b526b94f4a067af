PW : calculee restituee : "" ;
PX : calculee restituee : "" ;
PY : calculee restituee : "" ;
regle 1 : application : iliad ;
pour i = W..Y : Pi = 1 ;
