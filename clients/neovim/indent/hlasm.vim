" Blanks for tabs again: what other languages set for such files is undone behind the filetype's settings. A new line begins
" where the line before did.
if exists('b:did_indent')
  finish
endif
let b:did_indent = 1
setlocal expandtab autoindent indentexpr=
let b:undo_indent = 'setlocal expandtab< autoindent< indentexpr<'
