" SNL is told by what is in the file: others have files .st and .stt too.
autocmd BufNewFile,BufRead *.st,*.stt call s:look()

function! s:look() abort
  for line in getline(1, 200)
    if line =~# '\v^\s*(program|ss)\s+\h\w*' || line =~# '\v^\s*\%(\%|\{)'
      set filetype=snl
      return
    endif
  endfor
endfunction
