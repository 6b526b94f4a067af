# The codes of a rule base, with variables, types and descriptions: of UTF-8 and of Latin-1, with a comma, with and without a type.
printf 'iliad\na.m\n' >a.list
{
    printf 'REV : saisie revenu classe = 0 alias 1AJ : "salaires, \303\251tat" type REEL ;\n'
    printf 'ENF : saisie famille alias 0CF : "enfants \340 charge" type ENTIER ;\n'
    printf 'CASE : saisie alias 0BT : "" type BOOLEEN ;\nSANS : saisie alias 8ZZ : "sans type" ;\nIRN : calculee restituee : "n" type REEL ;\nK : const = 1 ;\n'
} >a.m
requests=$ROOT/tools/requests
"$requests" --codes a.list; echo "status $?"
"$requests" --codes a.list '0*' REV; echo "status $?"
"$requests" a.list --codes NIX; echo "status $?"
"$requests" --codes --inputs a.list 2>/dev/null; echo "status $?"
