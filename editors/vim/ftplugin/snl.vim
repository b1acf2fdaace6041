" Vim settings for SNL.
if exists('b:did_ftplugin')
  finish
endif
let b:did_ftplugin = 1
let b:undo_ftplugin = 'setlocal commentstring< | compiler make'

setlocal commentstring=/*%s*/
compiler snl
