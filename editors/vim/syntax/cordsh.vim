" the words of scripts of cordsh
if exists('b:current_syntax')
  finish
endif
syntax case match
syntax match cordshComment "^\s*#.*$" contains=@Spell
syntax region cordshText start=+"+ skip=+\\\\\|\\"+ end=+"+ oneline contains=cordshEscape,cordshBadEscape,@Spell
syntax region cordshFormat start=+"+ skip=+\\\\\|\\"+ end=+"+ oneline contained
      \ contains=cordshEscape,cordshBadEscape,cordshConversion
syntax match cordshBadEscape "\\." contained
syntax match cordshEscape +\\\(["\\nt]\|x\x\x\)+ contained
syntax match cordshConversion "%\([-0+]*[0-9]*\(\.[0-9]*\)\?l\{0,2}[diuoxXcsr]\|%\)" contained
syntax match cordshNumber "\(^\|\s\)\@<=-\?[0-9]\+\ze\(\s\|$\)"
syntax match cordshRelation "\(^\s*if\s\+\S\+\s\+\)\@<=\(lt\|eq\|gt\)\>"
syntax match cordshStatement "^\s*\zs\(let\|file\|eager\|lazy\|chars\|nul\|fn\|cat\|catn\|catc\|substr\|balance\)\>"
syntax match cordshStatement "^\s*\zs\(ectocord\|len\|fetch\|cmp\|ncmp\|str\|chr\|rchr\|set\|add\|sub\)\>"
syntax match cordshStatement "^\s*\zs\(ecinit\|ecput\|eccat\|ecstr\|put\)\>"
syntax match cordshStatement "^\s*\zssprintf\>" nextgroup=cordshFormatName skipwhite
syntax match cordshFormatName "\w\+" contained nextgroup=cordshFormat skipwhite
syntax match cordshFunction "\(^\s*fn\s\+\w\+\s\+\)\@<=\(digits\|bytes\)\>"
syntax match cordshBlock "^\s*\zs\(repeat\|if\|else\|end\)\>"
highlight default link cordshComment Comment
highlight default link cordshText String
highlight default link cordshFormat String
highlight default link cordshEscape SpecialChar
highlight default link cordshBadEscape Error
highlight default link cordshConversion Special
highlight default link cordshNumber Number
highlight default link cordshRelation Operator
highlight default link cordshFunction Constant
highlight default link cordshStatement Statement
highlight default link cordshBlock Repeat
let b:current_syntax = 'cordsh'
