" Decks of stretch, by their names. A file deck.txt is a text to vim before it comes here.
autocmd BufRead,BufNewFile *.deck,deck.txt set filetype=stretch
