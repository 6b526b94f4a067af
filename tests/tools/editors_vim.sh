# needs vim
# Vim takes a file *.m for M by what it has, and an empty one where a list is in its folder or above it.
mkdir -p 'base one/more' other
printf 'iliad\n' >'base one/rules.list'
printf 'batch\n' >other/other.list
: >'base one/empty.m'
printf '# des notes\n\n  # encore\n' >'base one/more/notes.m'
printf 'x = 1;\n' >'base one/matlab.m'
printf 'REV : saisie alias 1AJ : "s" ;\n' >rules.m
: >empty.m
for file in 'base one/empty.m' 'base one/new.m' 'base one/more/notes.m' 'base one/matlab.m' other/empty.m rules.m empty.m x.mpp; do
    vim -N -u NONE -i NONE -n -es --cmd "set rtp^=$ROOT/tools/editors/vim" -c 'filetype on' -c "edit $(printf %s "$file" | sed 's/ /\\ /g')" \
        -c 'call writefile([&filetype], "type")' -c 'qall!' </dev/null
    echo "$file $(cat type)"
done
