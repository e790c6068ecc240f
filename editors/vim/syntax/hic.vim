" The assembly language of hicamp.
if exists("b:current_syntax")
  finish
endif
syntax case match

syntax match hicComment /;.*$/
syntax match hicLabel /^\s*[A-Za-z_][A-Za-z0-9_]*:/
syntax match hicDirective /^\s*\.\(task\|seg\|data\)\>/
syntax keyword hicKind plain merge
syntax match hicRegister /\<r[0-7]\>/
syntax match hicIterator /\<i[0-3]\>/
syntax match hicNumber /\<\(0x[0-9a-fA-F]\{1,16}\|[0-9]\{1,20}\)\>/
syntax match hicNumber /-[0-9]\{1,20}\>/
syntax keyword hicMnemonic halt li lih mov addi
syntax keyword hicMnemonic add sub mul div rem and or xor shl shr ltu eq isref
syntax keyword hicMnemonic jmp jz jnz getb putb putn task
syntax keyword hicMnemonic open openr seek pos load store find next
syntax keyword hicMnemonic commit abort close root snap seal mcas

highlight default link hicComment Comment
highlight default link hicLabel Label
highlight default link hicDirective PreProc
highlight default link hicKind Type
highlight default link hicRegister Identifier
highlight default link hicIterator Special
highlight default link hicNumber Number
highlight default link hicMnemonic Statement

let b:current_syntax = "hic"
