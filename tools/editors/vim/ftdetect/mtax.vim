" Other languages have files *.m too: one is M where it declares a variable or has a rule or a verification, and an empty one, or one of comments alone, where a
" list is in its folder or rules.list above it.
function! s:IsM(folder) abort
  if search('^\s*\(regle\|verif\)\>\|:\s*\(saisie\|calculee\|const\|tableau\)\>', 'nw')
    return 1
  endif
  return !search('^\s*[^# \t]', 'nw') && (!empty(glob(a:folder .. '/*.list')) || !empty(findfile('rules.list', escape(a:folder, ' ,') .. ';')))
endfunction
autocmd BufRead,BufNewFile *.m if s:IsM(expand('<afile>:p:h')) | set filetype=mtax | endif
autocmd BufRead,BufNewFile *.mpp set filetype=mpptax
