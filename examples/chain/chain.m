# Two inputs, three constants and twelve rules of the application iliad. The figures are invented.
application iliad ;

SAL : saisie revenu classe = 0 priorite = 10 alias 1AJ : "wages" ;
FRA : saisie revenu classe = 0 priorite = 20 alias 1AK : "other income, here a loss" ;

TAUX : const = 0.333333 ;
PART : const = 3 ;
SEUIL : const = -5000 ;

BRUT : calculee base : "gross income" ;
ABAT : calculee : "allowance, below zero" ;
NET : calculee base restituee priorite = -1 : "net income" ;
TIERS : calculee restituee : "three times a third" ;
QUOTE : calculee restituee : "a product that is rounded up" ;
ECART : calculee restituee : "what the rounding took" ;
MOITIE : calculee restituee : "half a millionth below zero" ;
RIEN : calculee : "set by a rule of another application alone" ;
AUCUN : calculee restituee : "a product with an undefined factor" ;
TOTAL : calculee restituee : "a sum with an undefined summand" ;
RESTE : calculee restituee : "two differences, from the left" ;
SOLDE : calculee restituee : "the product first, then the difference" ;
IMPOT : calculee restituee : "the tax" ;
TROP : calculee restituee : "beyond the greatest amount" ;

regle 1 : application : iliad ;
BRUT = SAL + FRA ;

regle 2 : application : iliad , batch ;     # a rule of two applications
ABAT = -BRUT * 0.1 ;

regle 900 : application : oceans ;          # a rule of another one: it doesn't count
NET = 0 ;
RIEN = 1 ;

regle 3 : application : iliad ;
NET = BRUT + ABAT ;

regle base 004 : application : batch , iliad ;
TIERS = TAUX * PART ;

regle 5 : application : iliad ;
QUOTE = NET * TIERS ;

regle 6 : application : iliad ;
ECART = NET - QUOTE ;

regle 7 : application : iliad ;
MOITIE = 0.000001 * -0.5 ;

regle 8 : application : iliad ;
AUCUN = RIEN * 2 ;

regle 9 : application : iliad ;
TOTAL = AUCUN + QUOTE - SEUIL ;

regle 10 : application : iliad ;
RESTE = TOTAL - NET - SEUIL ;

regle 11 : application : iliad ;
SOLDE = RESTE - PART * 4000 ;

regle 12 : application : iliad ;
IMPOT = SOLDE + MOITIE ;
TROP = 10000000000000 * BRUT ;
