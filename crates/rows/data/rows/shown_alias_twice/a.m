A : saisie alias 1AA : "" ; B : saisie alias 1AA : "" ;
