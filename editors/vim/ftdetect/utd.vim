" Written by tools/grammar; change it there.
" Scripts of utd end in .td, which Vim takes for another language.
autocmd BufNewFile,BufRead *.td set filetype=utd
