" `:make` checks the module of the buffer and goes to the place of a refusal: tools/where.py turns its
" bytes into a line and a column. Where this folder was copied away from the repository, g:ctt_where
" is the path of where.py; g:ctt_program is that of the program.
if exists('current_compiler')
  finish
endif
let current_compiler = 'ctt'

let s:where = get(g:, 'ctt_where', expand('<sfile>:p:h:h:h:h') . '/tools/where.py')
let s:program = get(g:, 'ctt_program', 'ctt')
let s:make = '(cd %:p:h:S && echo In folder %:p:h:S && python3 ' . shellescape(s:where)
      \ . ' --brief --bytes ' . shellescape(s:program) . ' check %:t:r:S)'

execute 'CompilerSet makeprg=' . escape(s:make, ' \|"')
CompilerSet errorformat=%DIn\ folder\ %f,%f:%l:%c:\ %m
