# Each slip, texts and comments that look like one, Latin-1 and carriage returns; lists that are missing, and a fault of a file.
slips=$ROOT/tools/slips
printf 'iliad\r\na.m\r\n\r\n' >one.list
printf 'batch\na.m\nb.m\n' >two.list
cat >a.m <<'END'
# regle 1 : application : other ;
A : saisie restituee = 1 alias 1AJ : "; B : calculee restituee : " type REEL ;
T : tableau[3] calculee classe = -1 : "t" ;
regle primitif 10 : application : batch , oceans ;
pour i = V,C : T[X] = X ;
regle 11 : application : iliad ; enchaineur : c1 ;
A = 1 ;
application batch ; enchaineur c1 application : batch ;
verif 1 : application : oceans ; si A alors erreur E ;
END
printf 'C : calculee base restituee : "\351t\351" ;\r\n' >b.m
"$slips" one.list
echo "status $?"
"$slips" one.list two.list
echo "status $?"
"$slips" nowhere.list
echo "status $?"
printf 'iliad\nc.m\n' >three.list
printf 'A : const = 1.5 ;\nB : const = 1.\n' >c.m
"$slips" three.list
echo "status $?"
"$slips"
echo "status $?"
# Indexes that are numbers of any length, sums of any number of terms, products beyond the greatest amount; a driver through a pipe.
printf 'iliad\nlong.m\n' >long.list
{
    printf 'V : saisie alias 1AJ : "" ;\nT : tableau[5] calculee : "" ;\nA : calculee restituee : "" ;\nregle 1 : application : iliad ;\nT[X] = V ;\n'
    printf 'A = T[%05001d] + T[%05000d9]\n' 4 0
    awk 'BEGIN {
        printf "+ T[1"; for (k = 1; k < 25000; k++) printf "+1"
        printf "]\n+ T[9999999999999"; for (k = 1; k < 340; k++) printf "*9999999999999"
        print "]\n+ T[-(2 + 1)*2] ;"
    }'
} >long.m
"$slips" long.list
printf 'A : calculee : "" ;\nB : calculee restituee : "" ;\nregle 1 : application : iliad ; B = A ;\n' >c.m
printf 'main():\n  A = 1\n  B <- call_m()\n' | "$slips" --driver /dev/stdin three.list
echo "status $?"
cd "$ROOT" || exit 1
tools/slips examples/first/rules.list examples/loops/rules.list
echo "status $?"
tools/slips --driver examples/impot2023/driver.mpp examples/impot2023/rules.list
