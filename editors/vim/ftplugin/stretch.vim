" Writing decks of stretch: the columns of a card, and a tabulator that goes to column 10.
if exists('b:did_ftplugin')
  finish
endif
let b:did_ftplugin = 1

setlocal colorcolumn=10,73
setlocal textwidth=0 expandtab tabstop=8 softtabstop=0
setlocal comments=:* commentstring=*\ %s

compiler stretch

" Blanks up to column 10, or from there on to the next of the columns 18, 26 and so on.
function! StretchTab() abort
  let column = col('.')
  let wanted = column < 10 ? 10 : column + 8 - (column - 10) % 8
  return repeat(' ', wanted - column)
endfunction
inoremap <buffer> <silent> <Tab> <C-R>=StretchTab()<CR>

let b:undo_ftplugin = 'setlocal makeprg< errorformat< colorcolumn< textwidth< expandtab< tabstop< softtabstop< comments< commentstring<'
      \ . ' | silent! iunmap <buffer> <Tab>'
