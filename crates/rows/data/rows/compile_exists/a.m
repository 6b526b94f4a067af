U : saisie revenu avfisc = 1 alias 1AJ : "u" ;
V : saisie revenu avfisc = 1 alias 1BJ : "v" ;
W : saisie revenu avfisc = 1 alias 1CJ : "w" ;
A : calculee restituee : "a" ;
