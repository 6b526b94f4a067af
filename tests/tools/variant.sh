# A copy of the rules of 2023 with another threshold and another constant; and what is refused.
cp -r "$ROOT/examples/impot2023" rules
sed 's,examples/impot2023,rules,' rules/rules.list > rules/here.list
"$ROOT/tools/variant" rules/here.list 'SEUIL[2]=29797' DEC_SEUL=900.5 copy; echo "status $?"
cat copy/rules.list
cmp rules/revenus.m copy/revenus.m && diff -a rules/bareme.m copy/bareme.m
"$ROOT/tools/variant" rules/here.list DEC_SEUL=1 copy; echo "status $?"
"$ROOT/tools/variant" rules/here.list TMI=1 other; echo "status $?"
"$ROOT/tools/variant" rules/here.list DEC_SEULE=1 other; echo "status $?"
"$ROOT/tools/variant" rules/here.list DEC_SEUL=873.00 other; echo "status $?"
"$ROOT/tools/variant" rules/here.list DEC_SEUL=1,5 other; echo "status $?"
"$ROOT/tools/variant" rules/here.list DEC_SEUL=1 DEC_SEUL=2 other; echo "status $?"
printf 'iliad\na.m\n' > a.list
printf 'K : const = - 2 ;\nIRN : calculee restituee : "K = 3" ;\nregle 1 : application : iliad ; IRN = K ;\nregle 2 : application : b ; K2 = 1 ;\n' > a.m
"$ROOT/tools/variant" a.list K=3 minus; echo "status $?"
head -n 2 minus/a.m
printf 'K2 : const = 4 ;\n' >> a.m
"$ROOT/tools/variant" a.list K2=3 twice; echo "status $?"
"$ROOT/tools/variant" gone.list K=3 twice; echo "status $?"
"$ROOT/tools/variant" a.list; echo "status $?"
ls
# Formulas of rules that don't count, for they are of another application or chained; one that does, in a loop's rule.
printf 'iliad\nb.m\n' > b.list
{
    printf 'A : calculee : "" ;\nB : calculee : "" ;\nC : calculee : "" ;\nregle 1 : application : b ;\nA = 1 ;\n'
    printf 'regle 2 : application : iliad ; enchaineur : E ;\nB = 1 ;\nregle 3 : application : b, iliad ;\nC = 1 ;\n'
} > b.m
for name in A B C; do "$ROOT/tools/variant" b.list $name=3 of_$name; echo "status $?"; done
