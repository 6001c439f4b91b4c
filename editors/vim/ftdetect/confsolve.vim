" Which files are models: `.conf` files that begin as one, behind blank lines and comments.
autocmd BufRead,BufNewFile *.conf call s:DetectModel()

function! s:DetectModel() abort
  for line in getline(1, 200)
    if line =~# '^\s*\(//.*\)\?$'
      continue
    endif
    if line =~# '^\s*\(enum\|class\|abstract\s\+class\|var\|minimize\|maximize\)\s\+\h\|^\s*where\>'
      setfiletype confsolve
    endif
    return
  endfor
endfunction
