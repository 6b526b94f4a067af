T : tableau[0] calculee : "" ;
