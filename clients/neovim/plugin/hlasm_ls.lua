-- Starts hlasm_ls for each buffer with HLASM. Works with Neovim 0.7.2 and later.
if vim.g.loaded_hlasm_ls then
  return
end
vim.g.loaded_hlasm_ls = true

vim.api.nvim_create_autocmd('FileType', {
  group = vim.api.nvim_create_augroup('hlasm_ls', { clear = true }),
  pattern = 'hlasm',
  callback = function(event)
    require('hlasm_ls').start(event.buf)
  end,
})
