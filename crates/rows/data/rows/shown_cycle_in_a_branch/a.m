A : calculee restituee : "" ; regle 1 : application : iliad ; A = si 1 alors 2 sinon A finsi ;
