" Files of label rules for bradovusc: docs/NOTATION.md.
if exists('b:current_syntax')
  finish
endif

syntax case match

" In a file of Full ASCII a # behind a \ is a character.
syntax match bradovuscComment /#.*$/ contains=bradovuscTodo,@Spell
syntax keyword bradovuscTodo TODO FIXME XXX contained
syntax match bradovuscEdition /^full\s\+ascii\ze\s*\%(#.*\)\=$/

" NAME = TEMPLATE, and indented below it NAME = PATTERN
syntax match bradovuscRule /^[A-Za-z0-9_-]\+\ze\s*=/ nextgroup=bradovuscTemplateSign skipwhite
syntax match bradovuscName /^\s\+\zs[A-Za-z0-9_-]\+\ze\s*=/ nextgroup=bradovuscPatternSign skipwhite
syntax match bradovuscTemplateSign /=/ contained nextgroup=bradovuscTemplate skipwhite
syntax match bradovuscPatternSign /=/ contained nextgroup=bradovuscPattern skipwhite
syntax match bradovuscTemplate /\%(\\.\|[^\\#]\)\+/ contained contains=bradovuscField,bradovuscEscape,bradovuscEmpty
syntax match bradovuscPattern /\%(\\.\|[^\\#]\)\+/ contained contains=bradovuscClass,bradovuscCount,bradovuscEscape,bradovuscEmpty,bradovuscRepeat,bradovuscOr,bradovuscAny

syntax match bradovuscField /{[A-Za-z0-9_-]\+}/ contained
syntax match bradovuscEscape /\\<[A-Za-z0-9]\+>\|\\[^<]/ contained
syntax match bradovuscClass /\[\^\=\%(\\.\|[^]\\#]\)*\]\=/ contained contains=bradovuscEscape
syntax match bradovuscCount /{\d\+\%(,\d*\)\=}/ contained
syntax match bradovuscRepeat /[*+?]/ contained
syntax match bradovuscOr /[|()]/ contained
syntax match bradovuscEmpty /(\s*)/ contained
syntax match bradovuscAny /\./ contained

highlight default link bradovuscComment Comment
highlight default link bradovuscTodo Todo
highlight default link bradovuscEdition PreProc
highlight default link bradovuscRule Function
highlight default link bradovuscName Identifier
highlight default link bradovuscTemplateSign Operator
highlight default link bradovuscPatternSign Operator
highlight default link bradovuscTemplate String
highlight default link bradovuscField Identifier
highlight default link bradovuscEscape SpecialChar
highlight default link bradovuscEmpty Constant
highlight default link bradovuscClass Character
highlight default link bradovuscCount Number
highlight default link bradovuscRepeat Operator
highlight default link bradovuscOr Delimiter
highlight default link bradovuscAny Character

let b:current_syntax = 'bradovusc'
