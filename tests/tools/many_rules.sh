# What explain, slips and why take on a base of 20,000 rules. The program is a stub: each value is 1, and rules with a fault are rejected at the last one.
cat >stand_in <<'P'
#!/bin/sh
case $1 in
    run) [ "$4" = - ] && { echo "refused base.m line 60500 byte 3000000: unknown name V"; exit 1; }; sed 's/$/ = 1/' "$4" ;;
    check) echo sound ;;
esac
P
chmod +x stand_in
M_TAX=$PWD/stand_in
export M_TAX
python3 "$ROOT/tests/tools/many_rules.py"
