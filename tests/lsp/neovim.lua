-- Neovim as a client of the language server: diagnostics, completion, definition, rename, formatting. The folder with the base is the current one.
local root = os.getenv("ROOT")

local function say(...)
  io.stdout:write(table.concat(vim.tbl_map(tostring, { ... }), " ") .. "\n")
end

local function wait_for(what, found)
  if not vim.wait(240000, found, 20) then
    say("waited in vain for " .. what)
    vim.cmd("cquit")
  end
end

vim.cmd("edit base.m")
local buffer = vim.api.nvim_get_current_buf()
local client = vim.lsp.start_client({ name = "vodmejka", cmd = { root .. "/tools/lsp" }, root_dir = vim.fn.getcwd() })
vim.lsp.buf_attach_client(buffer, client)
wait_for("the server", function()
  return vim.lsp.buf_is_attached(buffer, client) and vim.lsp.get_client_by_id(client).initialized
end)

local function at(line, column)
  return { textDocument = vim.lsp.util.make_text_document_params(buffer), position = { line = line, character = column } }
end

local function ask(method, params)
  local answers = vim.lsp.buf_request_sync(buffer, method, params, 240000)
  return answers[client].result, answers[client].error
end

local function diagnostics(count)
  wait_for(count .. " diagnostics", function()
    return #vim.diagnostic.get(buffer) == count
  end)
  for _, told in ipairs(vim.diagnostic.get(buffer)) do
    say("diagnostic", told.lnum, told.col, told.end_col, (told.message:gsub("\n.*", "")))
  end
end

say("encoding", vim.bo.fileencoding)
diagnostics(2)

-- a name is mended letter by letter, as one types
vim.api.nvim_win_set_cursor(0, { 6, 14 })
vim.cmd("normal! 4xiTAXE")
diagnostics(0)
say("line", vim.api.nvim_get_current_line())

local items = ask("textDocument/completion", at(5, 16)).items
for _, item in ipairs(items) do
  if item.label:match("^TA") then
    say("completion", item.label, item.detail)
  end
end

local place = ask("textDocument/definition", at(5, 16))[1]
vim.lsp.util.jump_to_location(place, "utf-16")
say("definition", vim.fn.expand("%:t"), unpack(vim.api.nvim_win_get_cursor(0)))

vim.api.nvim_win_set_cursor(0, { 1, 0 })
vim.lsp.buf.rename("REVENU")
wait_for("the rename", function()
  return vim.api.nvim_buf_get_lines(buffer, 0, 1, false)[1]:match("^REVENU") ~= nil
end)
say("renamed", vim.api.nvim_buf_get_lines(buffer, 5, 6, false)[1])
diagnostics(0)

local _, fault = ask("textDocument/rename", vim.tbl_extend("force", at(5, 0), { newName = "si" }))
say("rejected", fault.message)

vim.lsp.buf.formatting_sync(nil, 240000)
say("laid out", vim.api.nvim_buf_get_lines(buffer, 5, 6, false)[1])

vim.cmd("write")
say("written as", vim.bo.fileencoding)
vim.lsp.stop_client(client)
wait_for("the end", function()
  return vim.lsp.client_is_stopped(client)
end)
vim.cmd("qall!")
