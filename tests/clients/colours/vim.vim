" Writes down, for each character of the file, the letter of its colour, into the file that HLASM_TEST_RECORD names.
let s:letters = {'hlasmName': 'N', 'hlasmMachine': 'O', 'hlasmOrdinary': 'O', 'hlasmConditional': 'O', 'hlasmCondition': 'O',
      \ 'hlasmMacro': 'O', 'hlasmGenerated': 'O', 'hlasmOperands': 'P', 'hlasmFreeOperands': 'P', 'hlasmGroupedOperands': 'P',
      \ 'hlasmGroup': 'P', 'hlasmAttribute': 'P', 'hlasmVariable': 'V', 'hlasmString': 'Q', 'hlasmComment': 'C',
      \ 'hlasmRemarks': 'R', 'hlasmCommaRemarks': 'R', 'hlasmUnread': 'S', 'hlasmBehindMark': 'S', 'hlasmMark': 'M', 'hlasmMargin': 'E'}
let s:rows = []
for s:number in range(1, line('$'))
  let s:row = ''
  let s:at = 1
  for s:char in split(getline(s:number), '\zs')
    let s:row .= s:char =~# '\s' ? ' ' : get(s:letters, synIDattr(synID(s:number, s:at, 0), 'name'), '?')
    let s:at += len(s:char)
  endfor
  call add(s:rows, substitute(s:row, ' *$', '', ''))
endfor
call writefile(s:rows, $HLASM_TEST_RECORD)
