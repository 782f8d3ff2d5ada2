" The syntax of acute. The crate lens_editors_table makes this file.
if exists("b:current_syntax")
  finish
endif
syntax case match
syntax iskeyword @,48-57,_,39
syntax keyword acuteKeyword as by else end fun if import in let like mark marshal match mod module myname name not raise rec sig struct then try type unmarshal val version with
syntax keyword acuteType bool exn int list option string unit
syntax keyword acuteValue false true Some None
syntax keyword acuteException Failure Invalid_argument Not_found Division_by_zero Match_failure End_of_file Sys_error Marshal_failure Unmarshal_failure Resolve_failure
syntax keyword acutePlace Static_Link Here_Already
syntax match acuteOperator "\V::"
syntax match acuteOperator "\V->"
syntax match acuteOperator "\V&&"
syntax match acuteOperator "\V||"
syntax match acuteOperator "\V="
syntax match acuteOperator "\V<"
syntax match acuteOperator "\V+"
syntax match acuteOperator "\V-"
syntax match acuteOperator "\V*"
syntax match acuteOperator "\V/"
syntax match acuteOperator "\V^"
syntax match acuteOperator "\V|"
syntax match acuteModule "\<[A-Z][A-Za-z0-9_']*"
syntax match acuteNumber "\<[0-9]\+"
syntax match acuteBadEscape contained "\\.\?"
syntax match acuteEscape contained "\\[\\\"ntr]"
syntax match acuteEscape contained "\\x[0-9A-Fa-f]\{2}"
syntax region acuteString oneline start=+"+ skip=+\\.+ end=+"+ contains=acuteBadEscape,acuteEscape
syntax region acuteComment start="(\*" end="\*)" contains=acuteComment,@Spell
highlight default link acuteKeyword Keyword
highlight default link acuteType Type
highlight default link acuteValue Constant
highlight default link acuteException Exception
highlight default link acutePlace Constant
highlight default link acuteModule Identifier
highlight default link acuteOperator Operator
highlight default link acuteNumber Number
highlight default link acuteString String
highlight default link acuteEscape SpecialChar
highlight default link acuteBadEscape Error
highlight default link acuteComment Comment
let b:current_syntax = "acute"
