#!/bin/sh
# Writes a rule file of about 16 MiB: `sh generate.sh chain FILE` or `sh generate.sh base FILE`.
set -eu
export LC_ALL=C
bytes=16777216
case "$1" in
chain)
    # A long chain of inputs and of rules that read each other, again and again.
    awk -v most="$bytes" '
    function line(s) { if (size + length(s) + 1 > most) exit; size += length(s) + 1; print s }
    BEGIN {
        n = 1000
        while (1) {
            for (k = 0; k < n; k++) {
                line("R" k " : saisie revenu classe = 0 alias C" k " : \"r\" ;")
                line("T" k " : calculee : \"t\" ;")
            }
            for (k = n - 1; k > 0; k--) {
                line("regle " (k + 1) " : application : iliad ;")
                line("T" k " = max(0, R" k " - 1000) + T" (k - 1) " ;")
            }
            line("regle 1 : application : iliad ;")
            line("T0 = max(0, R0 - 1000) ;")
            line("E1 : anomalie : \"E\" : \"1\" : \"0\" : \"negative\" ;")
            line("verif 1 : application : iliad ;")
            line("si T" (n - 1) " < 0 alors erreur E1 ;")
        }
    }' >"$2"
    ;;
base)
    # A base as they are written by hand, again and again, with texts in Latin-1.
    awk -v most="$bytes" '
    function line(s) { if (size + length(s) + 1 > most) exit; size += length(s) + 1; print s }
    BEGIN {
        text = "NBPT : saisie famille classe = 0 avfisc = 0 alias 0NB : \"Nombre de parts\" type REEL ;\n" \
            "RIBEN : saisie revenu classe = 0 avfisc = 1 alias 7UD : \"Dons\" type REEL ;\n" \
            "TXAB : const = 0.1 ;  ABMIN : const = 400 ;  ABMAX : const = 13000 ;\n" \
            "BRUTV : calculee : \"b\" ;  BRUTC : calculee : \"b\" ;  ABATV : calculee : \"a\" ;  ABATC : calculee : \"a\" ;\n" \
            "TRB : tableau[3] calculee : \"taux\" ;  TMI : tableau[4] calculee : \"taux marginal\" ;\n" \
            "IRNET : calculee base restituee : \"i\" ;  MARG : calculee restituee : \"m\" ;\n" \
            "regle 300 : application : iliad , batch ;   # read before it is written\n" \
            "IRNET = max(0, IBRUT - RIBEN) ;\n" \
            "NTR = (QF > S1) + (QF > S2) + (QF > S3) ;\n" \
            "MARG = TMI[NTR] ;\n" \
            "regle 200 : application : iliad , batch ;\n" \
            "TRB[0] = 0.1 ;  TRB[1] = 0.3 ;  TRB[2] = 0.4 ;\n" \
            "TMI[X] = X * 0.1 ;\n" \
            "IMPQ = max(0, min(QF, S2) - S1) * TRB[0] + max(0, min(QF, S3) - S2) * TRB[1] + max(0, QF - S3) * TRB[2] ;\n" \
            "IBRUT = arr(IMPQ * PARTS) ;\n" \
            "regle 100 : application : iliad , batch ;\n" \
            "pour i = V,C : BRUTi = somme(j=01..20: TSij) ;\n" \
            "pour i = V,C : ABATi = min(ABMAX, max(BRUTi * TXAB, min(ABMIN, BRUTi))) ;\n" \
            "pour un i dans (V,C) : NETi = max(0, BRUTi - ABATi) ;\n" \
            "REVT = somme(i=V,C: NETi) ;\n" \
            "PARTS = si present(NBPT) alors NBPT sinon 1 finsi ;\n" \
            "QF = REVT / PARTS ;\n" \
            "A01 : anomalie : \"A\" : \"01\" : \"00\" : \"parts\" : \"N\" ;\n" \
            "verif 2005 : application : iliad ;  si NBPT non dans (1, 1.5, 2, 2.5, 3..20) alors erreur A01 ;\n" \
            "verif 2006 : application : iliad ;  si somme(i=V,C: BRUTi) > 1000000 et non present(NBPT) alors erreur A01 ;"
        count = split(text, lines, "\n")
        while (1) {
            for (p = 0; p < 2; p++)
                for (k = 1; k <= 20; k++)
                    line(sprintf("TS%s%02d : saisie revenu classe = 0 priorite = 10 categorie_TL = 20 cotsoc = 5 ind_abat = 0 " \
                        "acompte = 1 avfisc = 0 rapcat = 8 sanction = 0 alias %s%02d : \"Traitements d\351clar\351s\" type REEL ;",
                        p ? "C" : "V", k, p ? "B" : "A", k))
            for (k = 1; k <= count; k++)
                line(lines[k])
        }
    }' >"$2"
    ;;
esac
