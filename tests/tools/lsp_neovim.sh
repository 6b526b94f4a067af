# The language server with Neovim, where that is installed: a Latin-1 file, a name that is unknown and mended by typing, completion, definition, rename, layout.
# needs nvim
printf 'iliad\nbase.m\n' >rules.list
printf 'REV : saisie revenu alias 1AJ : "s" ;\nTAXE : calculee : "droits \351ventuels \366" ;\nIRN : calculee restituee : "\340 payer" ;\n' >base.m
printf 'regle 10 : application : iliad ;\nTAXE = REV*0.1 ;\nIRN = REV  -  TAXX ;\n' >>base.m
HOME=$PWD XDG_CONFIG_HOME=$PWD/config XDG_DATA_HOME=$PWD/data XDG_STATE_HOME=$PWD/state M_TAX=/nowhere \
    nvim --clean --headless -c "luafile $ROOT/tests/lsp/neovim.lua" 2>errors || cat errors
iconv -f latin1 -t utf8 base.m
