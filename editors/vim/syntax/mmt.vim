" The modules that mmt checks, in .elf files.
if exists("b:current_syntax")
  finish
endif

syntax case match
" A name is a run of bytes that are neither white space nor one of : . ( ) [ ] { } % "
syntax iskeyword 33-126,128-255,^34,^%,^(,^),^.,^:,^[,^],^{,^}

" Other percent words are not in the language.
syntax match mmtError "%\k\+"
syntax match mmtWord "%\%(sig\|view\|include\|struct\)\>"
syntax keyword mmtReserved type -> <- = _
syntax match mmtReserved ":="
syntax match mmtModule "\%(%\%(sig\|view\)\s\+\)\@<=\k\+"
syntax match mmtDeclared "^\s*\zs\k\+\%(\.\k\+\)*\ze\s*:"
syntax match mmtComment "%\%(\s\|%\|$\).*"
syntax region mmtBlockComment start="%{" end="}%" contains=mmtBlockComment
" The sign %. ends the input.
syntax region mmtComment start="%\." end="\%$"

highlight default link mmtError Error
highlight default link mmtWord Statement
highlight default link mmtReserved Operator
highlight default link mmtModule Type
highlight default link mmtDeclared Identifier
highlight default link mmtComment Comment
highlight default link mmtBlockComment Comment

let b:current_syntax = "mmt"
