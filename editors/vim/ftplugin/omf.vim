" Settings for 65816 sources: fields begin in columns 10 and 16.
if exists('b:did_ftplugin')
  finish
endif
let b:did_ftplugin = 1

setlocal commentstring=*\ %s
setlocal comments=:*,:;,:!
setlocal formatoptions-=t formatoptions+=cro
setlocal expandtab softtabstop=0 shiftwidth=6
" Columns 10 and 16, and after these where comments begin.
if has('vartabs')
  setlocal vartabstop=9,6,16,8
endif
setlocal iskeyword=@,48-57,_,126
setlocal suffixesadd=.s

compiler omf

let b:undo_ftplugin = 'setlocal commentstring< comments< formatoptions< expandtab< softtabstop< shiftwidth< iskeyword< suffixesadd<'
      \ . (has('vartabs') ? ' vartabstop<' : '')
