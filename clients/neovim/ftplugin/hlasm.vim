" How HLASM is typed, in Neovim and in Vim: blanks for tabs, stops at columns 10 and 16, a ruler at column 72, which
" continues a line, and no wrapping. Comments begin with an asterisk in column 1: :HlasmComment puts it there in the lines of a
" range, or takes it away if all of them have it.
if exists('b:did_ftplugin')
  finish
endif
let b:did_ftplugin = 1
setlocal commentstring=*%s comments=b:*,b:.* colorcolumn=72
setlocal expandtab shiftwidth=0 varsofttabstop=9,6,8
setlocal nowrap textwidth=0 wrapmargin=0

if !exists('*s:ToggleComment')
  function s:ToggleComment(first, last) abort
    let l:lines = getline(a:first, a:last)
    let l:bare = filter(copy(l:lines), 'v:val[0] !=# "*"')
    call setline(a:first, map(l:lines, empty(l:bare) ? 'v:val[1:]' : '"*" . v:val'))
  endfunction
endif
command! -buffer -range HlasmComment call s:ToggleComment(<line1>, <line2>)

let b:undo_ftplugin = 'silent! delcommand HlasmComment | setlocal commentstring< comments< colorcolumn< expandtab< shiftwidth< varsofttabstop< wrap< textwidth< wrapmargin<'
