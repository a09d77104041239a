" Written by tools/grammar; change it there.
" Scripts of utd.
if exists('b:current_syntax')
  finish
endif

syntax case match
syntax iskeyword @,48-57,_,192-255

syntax keyword utdType BOOLEAN CHAR DATE INTEGER INTERVAL MOMENT
syntax keyword utdConstant FALSE TRUE
syntax keyword utdStatement ASK CONSTRAINT DELETE DROP HISTORY INSERT PRINT UPDATE USING VAR
syntax keyword utdTest AFTER AND BEFORE BEGINS ENDS IN INCLUDED_IN INCLUDES MEETS MERGES NOT OR OVERLAPS
syntax keyword utdOperator EXTEND INTERSECT JOIN MATCHING MINUS PACK SUMMARIZE UNION UNPACK
syntax keyword utdFunction BEGIN COUNT END FIRST IS_EMPTY IS_NOT_EMPTY LAST MAX MIN NEXT POST PRE PRIOR SUM
syntax keyword utdWord ALL AS BUT BY FOREIGN KEY ON PACKED PORTION REFERENCES RELATION RENAME THEN TUPLE UNPACKED VIRTUAL WHEN WHERE

" words that are reserved at their places alone
syntax match utdPlace /\<KEPT\>\ze\_s\+(\_s*\%(USING\|PACK\)\>/
syntax keyword utdStatement TERMINATE nextgroup=utdTerminateName skipwhite skipempty
syntax match utdTerminateName /\k\+/ contained nextgroup=utdAt skipwhite skipempty
syntax keyword utdAt AT contained
highlight default link utdAt utdPlace
syntax keyword utdStatement TYPE nextgroup=utdTypeName skipwhite skipempty
syntax match utdTypeName /\k\+/ contained nextgroup=utdOrdinal skipwhite skipempty
syntax keyword utdOrdinal ORDINAL contained
highlight default link utdOrdinal utdPlace
syntax match utdPlace /\<SINCE\>\ze\_s\+\%(\%(ALL\|AFTER\|AND\|AS\|ASK\|BEFORE\|BEGIN\|BEGINS\|BOOLEAN\|BUT\|BY\|CHAR\|CONSTRAINT\|COUNT\|DATE\|DELETE\|DROP\|END\|ENDS\|EXTEND\|FALSE\|FIRST\|FOREIGN\|HISTORY\|IN\|INCLUDED_IN\|INCLUDES\|INSERT\|INTEGER\|INTERSECT\|INTERVAL\|IS_EMPTY\|IS_NOT_EMPTY\|JOIN\|KEY\|LAST\|MATCHING\|MAX\|MEETS\|MERGES\|MIN\|MINUS\|MOMENT\|NEXT\|NOT\|ON\|OR\|OVERLAPS\|PACK\|PACKED\|PORTION\|POST\|PRE\|PRINT\|PRIOR\|REFERENCES\|RELATION\|RENAME\|SUM\|SUMMARIZE\|TERMINATE\|THEN\|TRUE\|TUPLE\|TYPE\|UNION\|UNPACK\|UNPACKED\|UPDATE\|USING\|VAR\|VIRTUAL\|WHEN\|WHERE\)\>\)\@!\k\+\_s*(/
syntax match utdPlace /\<DURING\>\ze\_s\+\%(\%(ALL\|AFTER\|AND\|AS\|ASK\|BEFORE\|BEGIN\|BEGINS\|BOOLEAN\|BUT\|BY\|CHAR\|CONSTRAINT\|COUNT\|DATE\|DELETE\|DROP\|END\|ENDS\|EXTEND\|FALSE\|FIRST\|FOREIGN\|HISTORY\|IN\|INCLUDED_IN\|INCLUDES\|INSERT\|INTEGER\|INTERSECT\|INTERVAL\|IS_EMPTY\|IS_NOT_EMPTY\|JOIN\|KEY\|LAST\|MATCHING\|MAX\|MEETS\|MERGES\|MIN\|MINUS\|MOMENT\|NEXT\|NOT\|ON\|OR\|OVERLAPS\|PACK\|PACKED\|PORTION\|POST\|PRE\|PRINT\|PRIOR\|REFERENCES\|RELATION\|RENAME\|SUM\|SUMMARIZE\|TERMINATE\|THEN\|TRUE\|TUPLE\|TYPE\|UNION\|UNPACK\|UNPACKED\|UPDATE\|USING\|VAR\|VIRTUAL\|WHEN\|WHERE\)\>\)\@!\k\+\_s*(/
syntax match utdPlace /\<OVER\>\ze\_s\+\k\+\_s*;/
syntax match utdPlace /\<LOG\>\ze\_s\+\%(\%(ALL\|AFTER\|AND\|AS\|ASK\|BEFORE\|BEGIN\|BEGINS\|BOOLEAN\|BUT\|BY\|CHAR\|CONSTRAINT\|COUNT\|DATE\|DELETE\|DROP\|END\|ENDS\|EXTEND\|FALSE\|FIRST\|FOREIGN\|HISTORY\|IN\|INCLUDED_IN\|INCLUDES\|INSERT\|INTEGER\|INTERSECT\|INTERVAL\|IS_EMPTY\|IS_NOT_EMPTY\|JOIN\|KEY\|LAST\|MATCHING\|MAX\|MEETS\|MERGES\|MIN\|MINUS\|MOMENT\|NEXT\|NOT\|ON\|OR\|OVERLAPS\|PACK\|PACKED\|PORTION\|POST\|PRE\|PRINT\|PRIOR\|REFERENCES\|RELATION\|RENAME\|SUM\|SUMMARIZE\|TERMINATE\|THEN\|TRUE\|TUPLE\|TYPE\|UNION\|UNPACK\|UNPACKED\|UPDATE\|USING\|VAR\|VIRTUAL\|WHEN\|WHERE\)\>\)\@!\k\+\_s*\<OF\>/
syntax match utdPlace /\<OF\>\ze\_s\+\%(\%(ALL\|AFTER\|AND\|AS\|ASK\|BEFORE\|BEGIN\|BEGINS\|BOOLEAN\|BUT\|BY\|CHAR\|CONSTRAINT\|COUNT\|DATE\|DELETE\|DROP\|END\|ENDS\|EXTEND\|FALSE\|FIRST\|FOREIGN\|HISTORY\|IN\|INCLUDED_IN\|INCLUDES\|INSERT\|INTEGER\|INTERSECT\|INTERVAL\|IS_EMPTY\|IS_NOT_EMPTY\|JOIN\|KEY\|LAST\|MATCHING\|MAX\|MEETS\|MERGES\|MIN\|MINUS\|MOMENT\|NEXT\|NOT\|ON\|OR\|OVERLAPS\|PACK\|PACKED\|PORTION\|POST\|PRE\|PRINT\|PRIOR\|REFERENCES\|RELATION\|RENAME\|SUM\|SUMMARIZE\|TERMINATE\|THEN\|TRUE\|TUPLE\|TYPE\|UNION\|UNPACK\|UNPACKED\|UPDATE\|USING\|VAR\|VIRTUAL\|WHEN\|WHERE\)\>\)\@!\k\+\_s*(/

syntax match utdSymbol /:=\|<>\|<=\|>=\|||\|:\|=\|<\|>\|+\|-\|\*\|\//
syntax match utdNumber /\<\d\+/
syntax match utdQuote /''/ contained
syntax region utdText matchgroup=utdText start=/'/ skip=/''/ end=/'/ contains=utdQuote
syntax match utdComment +//.*$+ contains=@Spell
syntax region utdComment start=+/\*+ end=+\*/+ contains=@Spell

highlight default link utdStatement Statement
highlight default link utdWord Keyword
highlight default link utdType Type
highlight default link utdConstant Boolean
highlight default link utdTest Operator
highlight default link utdOperator Operator
highlight default link utdFunction Function
highlight default link utdPlace Keyword
highlight default link utdSymbol Operator
highlight default link utdNumber Number
highlight default link utdText String
highlight default link utdQuote SpecialChar
highlight default link utdComment Comment

let b:current_syntax = 'utd'
