U1YA : const = 1 ;
U1YB : const = 20 ;
Q : const = 300 ;
U1 : const = 1 ;
U2 : const = 10 ;
VA : const = 100 ;
VB : const = 1000 ;
U81 : const = 81 ;
U324 : const = 1 ;
V36 : const = 20 ;
W2 : const = 300 ;
QA : const = 4000 ;
QB : const = 50000 ;
U2A : const = 1 ;
V1A : const = 20 ;
U2B : const = 300 ;
V1B : const = 4000 ;
V134 : const = 10 ;
V234 : const = 20 ;
TA23 : tableau[3] calculee : "t" ;
TB23 : tableau[3] calculee : "t" ;
R01 : calculee restituee : "" ;
R02 : calculee restituee : "" ;
R03 : calculee restituee : "" ;
R04 : calculee restituee : "" ;
R05 : calculee restituee : "" ;
R06 : calculee restituee : "" ;
K1 : calculee restituee : "" ;
K2 : calculee restituee : "" ;
regle 1 : application : iliad ;
TA23[2] = 4000 ; TB23[2] = 50000 ;
R01 = somme(i=1; j=Y; k=A,B: Uijk + somme(i=2; l=3: Tkil[i])) + Q ; # U1YA + TA23[2] + U1YB + TB23[2] + Q
R02 = somme(i=1,2: Ui + somme(i=A,B: Vi) + Ui) ; # U1 + VA + VB + U1 + U2 + VA + VB + U2
R03 = somme(i=8..08: somme(j=1: Uij)) ; # U81
R04 = somme(i=1; j=2: somme(i=3: somme(k=4: Uijk + somme(j=5: somme(j=6: Vij)) + Wj))) + somme(i=7: somme(i=A,B: Qi)) ; # U324 + V36 + W2 + QA + QB
R05 = somme(i=1: somme(j=A,B: somme(i=2: Uij) + Vij)) ; # U2A + V1A + U2B + V1B
R06 = somme(i=1..100; j=1..100: somme(k=1: 1)) - somme(i=1..100; j=1..100: 1) ;
pour i = 1,2 : Ki = somme(j=3: somme(k=4: Vijk + somme(i=5: i) + i)) ; # V134 + 5 + 1, V234 + 5 + 2
