" Vim compiler file
" Compiler: omf, by omf-explain, whose lines are PATH:LINE: CAUSE: text
"
" `:make` assembles the file to an object beside it; `:make macros` with macro files. Where omf-explain isn't on the path,
" g:omf_explain names it, as `let g:omf_explain = '~/omf/tools/explain'`.

if exists('current_compiler')
  finish
endif
let current_compiler = 'omf'

let s:explain = fnameescape(expand(get(g:, 'omf_explain', 'omf-explain')))
execute 'CompilerSet makeprg=' . escape(s:explain . ' asm %:S %:r:S.o $*', ' \|"')
CompilerSet errorformat=%f:%l:\ %m
