" Rule files of docs/RULES.md.
if exists("b:current_syntax")
  finish
endif
syntax keyword drlReserved package import dialect declare rule when then end salience not exists accumulate from over in this or extends new insert modify retract Number
syntax keyword drlBoolean true false
syntax keyword drlKind int long Integer Long boolean Boolean String
syntax keyword drlFunction count sum min max average
syntax keyword drlOperator after before coincides during includes finishes finishedby starts startedby meets metby overlaps overlappedby
syntax match drlPhrase /\<entry-point\>\|\<window:\(time\|length\)\>/
syntax match drlVariable /\$\w\+/
syntax match drlAnnotation /@\(role\|timestamp\|duration\|expires\|reference\|lateness\)\>/
syntax match drlNumber /\<\d\+\(\(d\|h\|m\|s\|ms\)\d*\)*\>/
syntax region drlText start=/"/ skip=/\\./ end=/"/ oneline
syntax region drlText start=/'/ skip=/\\./ end=/'/ oneline
syntax match drlComment /\/\/.*\|#.*/
syntax region drlComment start=/\/\*/ end=/\*\//
highlight default link drlReserved Keyword
highlight default link drlPhrase Keyword
highlight default link drlBoolean Boolean
highlight default link drlKind Type
highlight default link drlFunction Function
highlight default link drlOperator Operator
highlight default link drlVariable Identifier
highlight default link drlAnnotation PreProc
highlight default link drlNumber Number
highlight default link drlText String
highlight default link drlComment Comment
let b:current_syntax = "drl"
