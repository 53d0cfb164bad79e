" Reo: circuits of both versions, and scripts. The words are those of docs/FORMATS.md.
if exists("b:current_syntax")
  finish
endif

syn match reoComment "#.*$"
syn region reoText start=+"+ skip=+\\\\\|\\"+ end=+"+ oneline
syn match reoNumber "\<\d\+\>"
syn match reoVersion "^\s*reo\ze\s\+0*2\>"
syn match reoSign "[-+*/%=<>!&|:.,;]"

syn keyword reoFrame type connector in out node use with when to
syn keyword reoChannel sync lossy syncdrain asyncdrain fifo1 fifo filter map
syn keyword reoItem unit bool int sym text pair true false
syn keyword reoTerm it first second length if
syn keyword reoScript component write take within pause repeat

" Of version 2; they are names elsewhere.
syn match reoLoop "\<for\>\ze\s\+\h\w*\s*="
syn match reoKept "\<\(shift\|quota\)\>\ze\s\+\d"
syn match reoKept "\<variable\>\ze\s\+\h"

hi def link reoComment Comment
hi def link reoText String
hi def link reoNumber Number
hi def link reoVersion PreProc
hi def link reoSign Operator
hi def link reoFrame Keyword
hi def link reoChannel Type
hi def link reoItem Constant
hi def link reoTerm Function
hi def link reoScript Statement
hi def link reoLoop Repeat
hi def link reoKept Type

let b:current_syntax = "reo"
