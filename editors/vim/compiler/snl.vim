" Vim compiler file for SNL: :make checks the file, and errors and warnings come to the quickfix
" list with column, type and number. Words after :make go to the command, as in :make --strict
" g:snl_check names another command than snl-check, or the check beside these files.
if exists('current_compiler')
  finish
endif
let current_compiler = 'snl'

let s:command = get(g:, 'snl_check', 'snl-check')
if !exists('g:snl_check') && !executable(s:command)
  let s:command = shellescape(expand('<sfile>:p:h:h:h:h') . '/check')
endif
" A .st file goes through the preprocessor, and columns are not those of the file then.
let s:command .= expand('%:e') ==# 'st' ? ' --cpp' : ' --report'

execute 'CompilerSet makeprg=' . escape(s:command . ' $* -- %:S', ' \|"')
CompilerSet errorformat=%f:%l:%c:\ %tote:\ %m,%f:%l:%c:\ %t%n\ %m,%f:%l:\ %t%n\ %m
" Shown lines, the marks under them, and numbers of findings.
CompilerSet errorformat+=%-G%\\s%#%\\d%#\ \|\ %.%#,%-G%.%#errors\ %*\\d\ warnings\ %*\\d
