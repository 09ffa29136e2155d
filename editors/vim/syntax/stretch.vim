" Decks of stretch: column 1 tells the kind of a card, columns 2 to 9 its name, 10 to 72 its statement.
if exists('b:current_syntax')
  finish
endif
syntax case ignore

syntax match stretchName "^ \zs\S\{1,8}\%<10v"
syntax match stretchOperation "\%10v[^ ,(;]\+" contains=stretchPseudo
syntax match stretchPseudo "\%10v\(DD\|XW\|DR\|SYN\|SLC\|END\)\ze\s*\([(,;]\|$\)"
syntax match stretchGroup "(\(B\|BU\|D\|DU\|N\|U\)\(\s*,\s*\d\+\)\{0,2}\s*)"
syntax match stretchForm "(\(IM\|V[+-]I\|V[+-]IC\|V[+-]ICR\))"
syntax match stretchSymbol "\$[A-Z0-9]\+"
syntax match stretchNumber "\<\(0x\x\+\|\d\+\(\.\d\+\)\?\)\>"
syntax region stretchText start="'" end="'" oneline
syntax match stretchComment ";.*$" contains=stretchUnread
syntax match stretchCard "^\*.*$" contains=stretchUnread
syntax match stretchControl "^/\S*"
syntax match stretchTab "\t"
syntax match stretchUnread "\%>72v.\+$"

highlight default link stretchName Identifier
highlight default link stretchOperation Statement
highlight default link stretchPseudo PreProc
highlight default link stretchGroup Type
highlight default link stretchForm Type
highlight default link stretchSymbol Special
highlight default link stretchNumber Number
highlight default link stretchText String
highlight default link stretchComment Comment
highlight default link stretchCard Comment
highlight default link stretchControl PreProc
highlight default link stretchTab Error
highlight default link stretchUnread Error
let b:current_syntax = 'stretch'
