-- semscan in Neovim, 0.7 or later. Copy it into your init.lua, or name it there: dofile('/PATH/integrations/editors/semscan.lua').
-- The folder integrations/ must be on PATH, or write the whole path of semscan-lsp into cmd.
-- Files are told by their endings, as semscan does it: Neovim takes a header file (.h) for C++.
local clients = {}

-- The folder of this file, or one above it, that has rules.
local function folder_with_rules()
  local folder = vim.fn.expand('%:p:h')
  while vim.fn.filereadable(folder .. '/.semscan/rules.yaml') + vim.fn.filereadable(folder .. '/semscan.yaml') == 0 do
    local above = vim.fn.fnamemodify(folder, ':h')
    if above == folder then return nil end
    folder = above
  end
  return folder
end

vim.api.nvim_create_autocmd({ 'BufReadPost', 'BufNewFile' }, {
  pattern = '*.{py,pyi,c,h,json,txt,md,yaml,yml,toml,ini,cfg,sh,html}',
  callback = function()
    local folder = folder_with_rules()
    if folder == nil then return end
    local config = { name = 'semscan', cmd = { 'semscan-lsp' }, root_dir = folder }
    if vim.lsp.start then
      vim.lsp.start(config)
    else
      clients[folder] = clients[folder] or vim.lsp.start_client(config)
      vim.lsp.buf_attach_client(0, clients[folder])
    end
  end,
})
