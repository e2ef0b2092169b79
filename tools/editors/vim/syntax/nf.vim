" The packet language of maestro (docs/FORMATS.md). tools/try-views compares its words with those of the language.
if exists("b:current_syntax")
  finish
endif

syntax keyword nfDeclaration nf ports chain lifetime map fixed free array on six
syntax keyword nfLookup get else find where new taken full if
syntax keyword nfStatement touch set
syntax keyword nfAction forward flood drop
syntax keyword nfIndex index
syntax keyword nfField time length src_mac dst_mac src_ip dst_ip src_ip6 dst_ip6 proto ttl src_port dst_port
" A run of letters, digits, _ and . that begins with a digit is a number, or none of the three forms.
syntax match nfWrongNumber "\<\d[A-Za-z0-9_.]*"
syntax match nfNumber "\<\%(0\|[1-9]\d*\)\%([A-Za-z0-9_.]\)\@!"
syntax match nfNumber "\<0x[0-9a-f]\{1,16}\%([A-Za-z0-9_.]\)\@!"
syntax match nfAddress "\<\d\{1,3}\%(\.\d\{1,3}\)\{3}\%([A-Za-z0-9_.]\)\@!"
syntax match nfOperator "==\|!=\|<=\|>=\|[-<>+*/%&=]"
syntax match nfComment "#.*$" contains=nfTodo,@Spell
syntax keyword nfTodo TODO FIXME contained

highlight default link nfDeclaration Structure
highlight default link nfLookup Conditional
highlight default link nfStatement Statement
highlight default link nfAction Keyword
highlight default link nfIndex Identifier
highlight default link nfField Type
highlight default link nfWrongNumber Error
highlight default link nfNumber Number
highlight default link nfAddress Constant
highlight default link nfOperator Operator
highlight default link nfComment Comment
highlight default link nfTodo Todo

let b:current_syntax = "nf"
