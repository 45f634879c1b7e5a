-- Run by test_lsp.py in Neovim without a screen, with the settings of integrations/editors: opens a file, waits for what semscan finds, mends it by the fix that is offered,
-- and writes what it saw into the file that SEEN names.
local seen = {}
local function note(words) table.insert(seen, words) end
local function shown()
  local found = {}
  for _, one in ipairs(vim.diagnostic.get(0)) do
    table.insert(found, string.format('%s %d:%d-%d:%d', one.code or one.user_data.lsp.code, one.lnum, one.col, one.end_lnum, one.end_col))
  end
  return found
end
local function wait_for(count)
  vim.wait(15000, function() return #shown() == count end, 20)
  note(table.concat(shown(), ' '))
end

local started = 0
local start = vim.lsp.start and 'start' or 'start_client'
local before = vim.lsp[start]
vim.lsp[start] = function(...)
  started = started + 1
  return before(...)
end

dofile(os.getenv('SETTINGS'))
vim.cmd('edit ../out.py')
note(started .. ' servers')
vim.cmd('edit in\\ here/b.h')
vim.wait(15000, function() return #shown() == 1 end, 20)
vim.api.nvim_buf_set_lines(0, 0, 0, false, { '' })
vim.wait(15000, function() return shown()[1] == 'no-eval 1:0-1:7' end, 20)
note(shown()[1])
vim.cmd('edit! a.py')
wait_for(1)

vim.api.nvim_buf_set_lines(0, 1, 1, false, { 's = "\u{1f600}\u{e9}"; eval(x)' })
wait_for(2)

local client = next(vim.lsp.buf_get_clients(0))
local params = vim.lsp.util.make_given_range_params({ 2, 0 }, { 2, 0 })
params.context = { diagnostics = {}, only = { 'source.fixAll' } }
for _, answer in pairs(vim.lsp.buf_request_sync(0, 'textDocument/codeAction', params, 5000)) do
  note(answer.result[1].title)
  vim.lsp.util.apply_workspace_edit(answer.result[1].edit, vim.lsp.get_client_by_id(client).offset_encoding)
end
wait_for(0)
note(table.concat(vim.api.nvim_buf_get_lines(0, 0, -1, false), '|'))

vim.lsp.stop_client(client)
vim.wait(5000, function() return vim.lsp.client_is_stopped(client) end, 20)
note(tostring(vim.lsp.client_is_stopped(client)))
vim.fn.writefile(seen, os.getenv('SEEN'))
vim.cmd('qall!')
