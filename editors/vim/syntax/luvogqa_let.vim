" Vim syntax file for the let dialect of Luvogqa: docs/LET.md has the dialect.
if exists('b:current_syntax')
  finish
endif

syntax case match

" Functions:  fun NAME p .. | end
" Lines:      let x = a | let x = a op b | print a | raise a | return a
"             await x = F a .. | await x = work K a | try x = F a .. else G

" A line begins with its statement; `when a` may stand in front of one that binds nothing.
syntax match luvogqaLetFrame "^\s*\zs\(fun\|end\)\ze\(\s\|#\|$\)"
syntax match luvogqaLetName "\(^\s*fun\s\+\)\@<=\h\w*"
syntax match luvogqaLetWhen "^\s*\zswhen\ze\s\+\S\+\s"
syntax match luvogqaLetAction "\(^\s*\(when\s\+\S\+\s\+\)\?\)\@<=\(print\|raise\|return\)\ze\s"
syntax match luvogqaLetBinding "^\s*\zs\(let\|await\|try\)\ze\s"

" Words in the middle of a line.
syntax match luvogqaLetElse "\(^\s*try\s.*\s\)\@<=else\ze\s"
syntax match luvogqaLetWork "\(^\s*await\s\+\S\+\s\+=\s\+\)\@<=work\ze\s"
syntax match luvogqaLetKind "\(^\s*await\s\+\S\+\s\+=\s\+work\s\+\)\@<=\(square\|mix\|fail\)\ze\s"
syntax match luvogqaLetOperator "\s\zs\(+\|-\|\*\|/\|%\|<\|<=\|=\|!=\)\ze\s"
syntax match luvogqaLetNumber "\s\zs-\?\d\+\ze\(\s\|#\|$\)"
syntax match luvogqaLetComment "#.*$"

highlight default link luvogqaLetFrame Structure
highlight default link luvogqaLetName Function
highlight default link luvogqaLetWhen Conditional
highlight default link luvogqaLetAction Statement
highlight default link luvogqaLetBinding Keyword
highlight default link luvogqaLetElse Keyword
highlight default link luvogqaLetWork Keyword
highlight default link luvogqaLetKind Constant
highlight default link luvogqaLetOperator Operator
highlight default link luvogqaLetNumber Number
highlight default link luvogqaLetComment Comment

let b:current_syntax = 'luvogqa_let'
