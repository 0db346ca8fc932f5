" Modules of Cubical Type Theory, as ctt reads them.
if exists('b:current_syntax')
  finish
endif

syntax iskeyword @,48-57,_,'
syntax keyword cttKeyword module where import let in
syntax keyword cttForm PathP comp fill transport Glue glue unglue
syntax keyword cttType U nat
syntax keyword cttBuiltIn zero suc natrec
syntax keyword cttRefused data hdata split mutual undefined opaque transparent transparent_all
syntax match cttRefused /[?|{};]/
syntax match cttSign +->\|/\\\|\\/\|[\\@*=:,]+
syntax match cttEnd /\<[01]\>/
syntax match cttProjection /\.[12]/
syntax match cttName /^\s*\zs[[:alpha:]_][[:alnum:]_']*\ze\%(\s*(\_[^:=]*:\_[^=]\{-})\)*\s*:/
syntax match cttDimension /<[[:alpha:]_][[:alnum:]_' ]*>/
syntax match cttDimension /(\zs[[:alpha:]_][[:alnum:]_']*\ze\s*=\s*[01])/
syntax match cttComment /--.*$/ contains=cttTodo
syntax region cttComment start=/{-/ end=/-}/ contains=cttTodo
syntax keyword cttTodo TODO FIXME contained

highlight default link cttKeyword Keyword
highlight default link cttForm Function
highlight default link cttType Type
highlight default link cttBuiltIn Constant
highlight default link cttRefused Error
highlight default link cttSign Operator
highlight default link cttEnd Number
highlight default link cttProjection Operator
highlight default link cttName Identifier
highlight default link cttDimension Special
highlight default link cttComment Comment
highlight default link cttTodo Todo

let b:current_syntax = 'ctt'
