# The layout: what it makes of blanks, breaks and comments, of Latin-1 and of carriage returns; files with faults; and that it keeps the tokens of every row
# and example.
fmt=$ROOT/tools/fmt
printf '# notes\r\nREV:saisie revenu classe=-2 alias 1AJ:"s ;  # x"type REEL;SEUIL:const=-1000; # seuil \351\r\n' >crlf.m
printf 'T : tableau [ 4 ]calculee:"deux\r\nlignes" ;\r\n' >>crlf.m
"$fmt" crlf.m; echo "status $?"
iconv -f latin1 -t utf8 crlf.m | sed 's/\r/<CR>/'
cat >a.m <<'END'


# du foyer
A : calculee : "a";B:calculee:"b" ;  # deux


regle  calcul 10:application:iliad,batch;enchaineur:c1;A=si(B+1)>- 2 et non B dans(1,3 .. 5,- 2)
alors max( B ,T [ X-1 ] )
      # pourquoi
 sinon -B*(2)
finsi;T[ X ]=somme( i = 1 .. 3 , 5;j=V,C:Bij )+somme(un i dans( V,C )et un j dans 1..2:Cij);
pour i=V,C;j=1..2 :pour un k dans( A , B ) : Dijk=arr( - B );
verif 1:application : iliad;si A<0
  alors erreur E ; si B alors erreur F ;
E:anomalie:"A":"b" : "c":"d";
END
"$fmt" - <a.m >made.m; cat made.m
"$fmt" - <made.m | cmp - made.m
"$fmt" --check a.m made.m; echo "status $?"
cat >d.mpp <<'END'
# haut
main( ):
      A,B<-f( )    # appel
      if not(A==- 1)and present( T [ 2 ] ):
       # dedans
       del  T[2]
      else :
           T[2]=-A*(B+1.5)


f():
 partition with  avfisc=1,2 :
    A<-call_m()
# fin
END
"$fmt" --driver - <d.mpp
printf 'A = 1 ;\n' >bad.m
printf 'A : calculee : "x ;\n' >open.m
printf 'f():\n' >bad.mpp
"$fmt" bad.m open.m bad.mpp none.m; echo "status $?"
cat bad.m
ln -s a.m link.m; chmod 640 a.m
"$fmt" link.m; cmp a.m made.m; stat -c '%A %F' a.m link.m; ls -A | tr '\n' ' '; echo
"$fmt" --never; echo "status $?"
python3 -B "$ROOT/tests/lsp/layouts.py" "$ROOT"
