"""The files of a new rule base, in English and French: rules, a driver, a household, cases that reach all of them, and a check."""
from __future__ import annotations

LIST = """iliad
rules.m
"""

RULES = """# {heading}
# {replace}
SALAIRE : saisie revenu avfisc = 0 alias 1AJ : "{wages}" type REEL ;
ENFANTS : saisie famille avfisc = 0 alias 0CF : "{children}" type ENTIER ;
DONS : saisie charge avfisc = 1 alias 7UF : "{gifts}" type REEL ;

TXFRAIS : const = 0.1 ;        # {deduction}
PARENF : const = 1000 ;        # {allowance}
TXDON : const = 0.5 ;          # {gift_rate}

SEUIL : tableau[2] calculee : "{thresholds}" ;
TAUX : tableau[2] calculee : "{rates}" ;
NET : calculee restituee : "{net}" ;
BRUT : calculee : "{gross}" ;
REDUC : calculee restituee : "{reduction}" ;
IMPOT : calculee restituee : "{tax}" ;
SANS : calculee restituee : "{without}" ;
GAIN : calculee restituee : "{gain}" ;

regle 10 : application : iliad ;
SEUIL[0] = 10000 ;   TAUX[0] = 0.1 ;
SEUIL[1] = 30000 ;   TAUX[1] = 0.2 ;    # {more}

regle 20 : application : iliad ;
NET = max(0, SALAIRE * (1 - TXFRAIS) - PARENF * ENFANTS) ;
BRUT = somme(k=0..1: TAUX[k] * max(0, NET - SEUIL[k])) ;

regle 30 : application : iliad ;
REDUC = si present(DONS) alors min(TXDON * DONS, BRUT) sinon 0 finsi ;
IMPOT = arr(BRUT - REDUC) ;

A01 : anomalie : "A" : "01" : "00" : "{negative}" : "N" ;
I01 : informative : "I" : "01" : "00" : "{limited}" : "N" ;

verif 1 : application : iliad ;
si SALAIRE < 0 ou ENFANTS < 0 ou DONS < 0 alors erreur A01 ;

verif 2 : application : iliad ;
si TXDON * DONS > BRUT alors erreur I01 ;
"""

DRIVER = """# {driver}
main():
  SANS <- without()
  NET, REDUC, IMPOT <- call_m()
  GAIN = SANS - IMPOT
without():
  partition with taxbenefit:
    IMPOT <- call_m()
  SANS = IMPOT
"""

HOUSEHOLD = """code,amount
1AJ,50000
0CF,1
7UF,400
"""

# 1AJ 50000 with a child: 45000 - 1000 = 44000; 10 % of 34000 and 20 % more of 14000 = 3400 + 2800 = 6200; gifts 400: 200 less.
# 1AJ 12000: 10800; 10 % of 800 = 80; gifts 400 would take off 200, which is more. 1AJ 500 with a child: 450 - 1000 is below 0.
CASES = """name,1AJ,0CF,7UF,=NET,=call_m:BRUT,=REDUC,=IMPOT,=SANS,=GAIN
child_and_gifts,50000,1,400,44000,6200,200,6000,6200,200
no_gifts,50000,1,,44000,6200,0,6200,6200,0
gifts_above_the_tax,12000,0,400,10800,80,80,0,80,80
no_tax,500,1,,0,0,0,0,0,0
below_0,-1,0,,stop,stop,stop,stop,stop,stop
"""

CHECK = """#!/bin/sh
# {check}
set -e
cd "$(dirname "$0")"
vodmejka slips --driver driver.mpp rules.list
vodmejka cases rules.list driver.mpp cases.csv
vodmejka coverage rules.list driver.mpp cases.csv --least 100 --page coverage.html --lcov coverage.lcov
"""

GITLAB = """# {gitlab}
check:
  script:
    - sh check.sh
  artifacts:
    when: always
    paths: [coverage.html, coverage.lcov]
"""

README = """# {title}

{readme}

```
vodmejka cases rules.list driver.mpp cases.csv
m_tax run rules.list driver.mpp - household.csv
vodmejka doc rules.list driver.mpp --into reference
sh check.sh
```
"""
