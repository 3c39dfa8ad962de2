-- Which files are HLASM. This comes behind Neovim's own rules, which take *.asm and *.mac for other assemblers.
vim.api.nvim_create_autocmd({ 'BufRead', 'BufNewFile' }, {
  group = 'filetypedetect',
  callback = function(event)
    local path = vim.fn.fnamemodify(event.file, ':p')
    if require('hlasm_ls.workspace').is_hlasm(path) then
      vim.b[event.buf].did_ftplugin = nil -- of another assembler
      vim.bo[event.buf].filetype = 'hlasm'
    end
  end,
})
