" Which files are HLASM, for Vim. Neovim has hlasm.lua beside this, which knows library folders too.
if !has('nvim')
  autocmd BufRead,BufNewFile *.hlasm,*.asm,*.mac,*.cpy setlocal filetype=hlasm
endif
