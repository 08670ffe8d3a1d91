" Files of label rules for bradovusc. Other programs have files with this ending too, so the first line that says something decides.
function! s:Detect() abort
  if &filetype !=# '' && &filetype !=# 'hog' && &filetype !=# 'conf'
    return
  endif
  for l:line in getline(1, 50)
    if l:line =~# '^\s*\%(#.*\)\=$'
      continue
    endif
    if l:line =~# '^full\s\+ascii\s*\%(#.*\)\=$' || l:line =~# '^[A-Za-z0-9_-]\+\s*=\s*[^=[:blank:]]'
      set filetype=bradovusc
    endif
    return
  endfor
endfunction

autocmd BufNewFile,BufRead *.rules call s:Detect()
