# The settings for Neovim that docs/EDITORS.md has, with the part for version 0.7 where that is installed: a rule file gets its type, the server and completion.
# needs nvim
block() { python3 -B "$ROOT/tests/tools/page_blocks.py" docs/EDITORS.md "$1" | sed "s#REPOSITORY#$ROOT#g"; }
block 1 >init.lua
block 2 >older.lua
# (without vim.lsp.start the lines of its call, the first of six, are those of the older call)
if [ "$(nvim --clean --headless -c 'lua print(vim.lsp.start == nil)' -c 'qa!' 2>&1)" = true ]; then
    sed -i -e '/vim\.lsp\.start({/,/^    })$/!b' -e '/^    })$/r older.lua' -e d init.lua
fi
cat >look.lua <<'L'
local function names()
  return vim.tbl_map(function(client) return client.name end, (vim.lsp.get_active_clients or vim.lsp.get_clients)())
end
vim.wait(20000, function() return #names() > 0 end)
print(vim.bo.filetype, table.concat(names(), " "), vim.bo.omnifunc, vim.fn.maparg("gd", "n") ~= "" or vim.fn.mapcheck("gd", "n") ~= "")
L
cd "$ROOT" || exit 1
HOME=$OLDPWD XDG_CONFIG_HOME=$OLDPWD/config XDG_DATA_HOME=$OLDPWD/data XDG_STATE_HOME=$OLDPWD/state M_TAX=/nowhere \
    nvim --headless -u "$OLDPWD/init.lua" examples/loops/base.m -c "luafile $OLDPWD/look.lua" -c 'qa!' 2>&1
echo
