" Vim syntax file for the scripts of Luvogqa: docs/LANGUAGE.md has the language.
if exists('b:current_syntax')
  finish
endif

syntax case match

" Numbers and errors:    set x a op b | print a | raise a | send m a | ret a | stop
" Deferreds:             ivar i | fill i a | offer i a | upon d P args | bind r d P args | never r | yield r
"                        all r d.. then P args | any r d.. | choose r d P d P .. with args
" Jobs:                  sched P args | low P args
" Time:                  after r n | event e r n | abort e | tick n
" Monitors:              monitor m | within m P args | detach m | onerror m P args | nexterr r m
"                        try r P args else Q args | try r P args else Q args rest raise (below a first line: async 2)
" Throttles:             throttle t k stop | throttle t k go | enqueue r t P args | tdone r t
" Pipes:                 pipe p b | write r p a | put p a | rd r p P args else Q args
"                        close p | closeread p | flushed r p
" Works:                 work r K a | helper h x | hwork r h K a | hdone h

" A line begins with its statement; `if a` and `unless a` may stand in front of one that binds nothing.
syntax match luvogqaPrefix "^\s*\zs\(if\|unless\)\ze\s\+\S\+\s"
syntax match luvogqaFrame "^\s*\zs\(async\|proc\|end\)\ze\(\s\|#\|$\)"
syntax match luvogqaStatement "\(^\s*\(\(if\|unless\)\s\+\S\+\s\+\)\?\)\@<=\(fill\|offer\|upon\|sched\|low\|print\)\ze\(\s\|#\|$\)"
syntax match luvogqaStatement "\(^\s*\(\(if\|unless\)\s\+\S\+\s\+\)\?\)\@<=\(abort\|tick\|within\|detach\|onerror\|raise\|send\)\ze\(\s\|#\|$\)"
syntax match luvogqaStatement "\(^\s*\(\(if\|unless\)\s\+\S\+\s\+\)\?\)\@<=\(put\|close\|closeread\|hdone\|stop\|ret\)\ze\(\s\|#\|$\)"
syntax match luvogqaBinding "^\s*\zs\(set\|ivar\|bind\|all\|any\|choose\|yield\|never\|after\|event\)\ze\(\s\|#\|$\)"
syntax match luvogqaBinding "^\s*\zs\(monitor\|nexterr\|try\|throttle\|enqueue\|tdone\|pipe\|write\|rd\|flushed\)\ze\(\s\|#\|$\)"
syntax match luvogqaBinding "^\s*\zs\(work\|helper\|hwork\)\ze\(\s\|#\|$\)"

" Words in the middle of a statement.
syntax match luvogqaMiddle "\s\zs\(then\|with\|else\|rest\)\ze\(\s\|#\|$\)"
syntax match luvogqaMode "\(^\s*throttle\s.*\s\)\@<=\(stop\|go\)\ze\s*\(#\|$\)"
syntax match luvogqaMode "\(^\s*try\s.*\srest\s\+\)\@<=raise\ze\s*\(#\|$\)"
syntax match luvogqaWork "\(^\s*h\?work\s.*\s\)\@<=\(square\|mix\|fail\)\ze\s"
syntax match luvogqaKind ":\(num\|ivar\|def\|mon\|pipe\|thr\|event\|helper\)\ze\(\s\|#\|$\)"
syntax match luvogqaOperator "\s\zs\(+\|-\|\*\|/\|%\|<\|<=\|=\|!=\)\ze\s"
syntax match luvogqaNumber "\(^\|\s\)\zs-\?\d\+\ze\(\s\|#\|$\)"
syntax match luvogqaComment "#.*$"

highlight default link luvogqaPrefix Conditional
highlight default link luvogqaFrame Structure
highlight default link luvogqaStatement Statement
highlight default link luvogqaBinding Keyword
highlight default link luvogqaMiddle Keyword
highlight default link luvogqaMode Constant
highlight default link luvogqaWork Constant
highlight default link luvogqaKind Type
highlight default link luvogqaOperator Operator
highlight default link luvogqaNumber Number
highlight default link luvogqaComment Comment

let b:current_syntax = 'luvogqa'
