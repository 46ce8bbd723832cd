" A source is known by a directive of ORCA/M near its start: the ending .s is that of other assemblers too.
function! s:Detect() abort
  for line in getline(1, 200)
    if line =~? '^[^ \t*;!]*[ \t]\+\%(START\|PRIVATE\|DATA\|PRIVDATA\|MACRO\|MCOPY\|KEEP\)\%([ \t]\|$\)'
      " Those for assemblers of C's kind, which came before, leave their mark and don't undo it.
      unlet! b:did_ftplugin
      set filetype=omf
      return
    endif
  endfor
endfunction

autocmd BufNewFile,BufRead *.s,*.asm,*.macros,macros call s:Detect()
