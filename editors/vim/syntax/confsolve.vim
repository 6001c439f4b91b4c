" Syntax of ConfSolve models.
if exists('b:current_syntax')
  finish
endif

syntax case match

syntax keyword confsolveDeclaration enum abstract class extends var as where
syntax keyword confsolveGoal maximize minimize
syntax keyword confsolveShape int bool ref
syntax keyword confsolveQuantifier forall foreach exists sum count alldifferent pack
syntax keyword confsolveOperator in and or not
syntax keyword confsolveConstant true false this
syntax match confsolveNumber /\<\d\+\>/
syntax match confsolveOperator /->\|\.\.\|[!=<>]=\|&&\|||\|[=<>+*!-]/
syntax match confsolveComment /\/\/.*$/ contains=confsolveTodo,@Spell
syntax keyword confsolveTodo TODO FIXME contained

highlight default link confsolveDeclaration Statement
highlight default link confsolveGoal Statement
highlight default link confsolveShape Type
highlight default link confsolveQuantifier Repeat
highlight default link confsolveOperator Operator
highlight default link confsolveConstant Constant
highlight default link confsolveNumber Number
highlight default link confsolveComment Comment
highlight default link confsolveTodo Todo

let b:current_syntax = 'confsolve'
