" Vim syntax file for SNL, made by make_syntax.
if exists('b:current_syntax')
  finish
endif

syntax keyword snlConditional if else
syntax keyword snlKeyword program ss state entry exit when option assign to monitor sync syncq syncQ foreign break continue return
syntax keyword snlOperator sizeof
syntax keyword snlRepeat while for
syntax keyword snlStorageClass const
syntax keyword snlStructure enum struct union typename
syntax keyword snlType void char short int long unsigned int8_t uint8_t int16_t uint16_t int32_t uint32_t float double string evflag

syntax match snlNumber /\v<\d[0-9A-Za-z_.]*|\.\d[0-9A-Za-z_.]*/
syntax region snlString start=/"/ skip=/\\./ end=/"/ oneline
syntax region snlCharacter start=/'/ skip=/\\./ end=/'/ oneline
syntax match snlMarker /#.*$/
syntax match snlC /%%.*$/
syntax region snlC start=/%{/ end=/}%/
syntax match snlComment "//.*$"
syntax region snlComment start="/\*" end="\*/"

highlight default link snlCharacter Character
highlight default link snlC PreProc
highlight default link snlComment Comment
highlight default link snlConditional Conditional
highlight default link snlKeyword Keyword
highlight default link snlMarker PreProc
highlight default link snlNumber Number
highlight default link snlOperator Operator
highlight default link snlRepeat Repeat
highlight default link snlStorageClass StorageClass
highlight default link snlString String
highlight default link snlStructure Structure
highlight default link snlType Type

let b:current_syntax = 'snl'
