# An aid of a tenth of what is left to pay, and what is left to pay with the aid taken off: each reads the other.
AIDE : calculee restituee : "the aid" ;
SOLDE : calculee restituee : "what is left to pay" ;

regle 40 : application : iliad ;
AIDE = SOLDE * 0.1 ;
SOLDE = IMPOT - AIDE ;
