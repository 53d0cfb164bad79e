" Reo: traces, and proofs, which are traces with logs. The lines are those of docs/FORMATS.md.
if exists("b:current_syntax")
  finish
endif

syn match reotraceRound "^round \d\+:" nextgroup=reotraceMoves
syn match reotraceMoves " [^|]*|" contained contains=reotraceWrite,reotraceTake,reotraceRest nextgroup=reotraceRows
syn match reotraceWrite "\h\w*!" contained
syn match reotraceTake "\h\w*?" contained
syn match reotraceRest "\<idle\>\| - " contained
syn match reotraceRows ".*$" contained contains=reotraceJam
syn match reotraceJam "\<j\>" contained
syn match reotraceEnding "^\(done\|stuck\|limit\) after \d\+ rounds$"
syn match reotraceOver "^\(spent\|wide\) in round \d\+: .*$"
syn match reotraceLog "^\(at\|drop\|empty\|split\) .*$" contains=reotraceValue
syn match reotraceValue "\<\(f \d\+\|rg\|gr\|gg\|jam\)\>" contained
syn match reotraceProved "^proved$"

hi def link reotraceRound Label
hi def link reotraceWrite Identifier
hi def link reotraceTake Type
hi def link reotraceRest Comment
hi def link reotraceRows Number
hi def link reotraceJam Error
hi def link reotraceEnding Statement
hi def link reotraceOver Error
hi def link reotraceLog Comment
hi def link reotraceValue Constant
hi def link reotraceProved Keyword

let b:current_syntax = "reotrace"
