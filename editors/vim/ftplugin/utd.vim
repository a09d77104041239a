" Written by tools/grammar; change it there.
" How a script of utd is edited.
if exists('b:did_ftplugin')
  finish
endif
let b:did_ftplugin = 1

setlocal commentstring=//\ %s comments=s1:/*,mb:*,ex:*/,://
setlocal expandtab shiftwidth=2 softtabstop=2

" An interval may begin with a square bracket and end with a round one, so the matchit plugin takes both kinds for one, and Vim itself pairs braces alone.
setlocal matchpairs={:}
let b:match_words = '[[(]:[])]'
let b:match_skip = 's:^utd\(Comment\|Text\|Quote\)$'

let b:undo_ftplugin = 'setlocal commentstring< comments< expandtab< shiftwidth< softtabstop< matchpairs< | unlet! b:match_words b:match_skip'
