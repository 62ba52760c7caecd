" Vim syntax of Active Oberon, as `aos` reads it. Put this file as ~/.vim/syntax/aos.vim, and into ~/.vimrc:
"   autocmd BufRead,BufNewFile *.Mod set filetype=aos
if exists("b:current_syntax")
  finish
endif

syntax case match
syntax keyword aosStatement BEGIN CASE DO ELSE ELSIF END EXIT FOR IF LOOP OF REPEAT RETURN THEN TO BY UNTIL WHILE WITH AWAIT
syntax keyword aosDeclaration MODULE IMPORT CONST TYPE VAR PROCEDURE OBJECT RECORD ARRAY POINTER
syntax keyword aosOperator DIV MOD OR IN IS
syntax keyword aosConstant NIL TRUE FALSE SELF
syntax keyword aosType BOOLEAN CHAR SHORTINT INTEGER LONGINT HUGEINT SET ANY
syntax keyword aosFunction ABS ASH CAP CHR LEN LONG MAX MIN ODD ORD SHORT
syntax keyword aosFunction ASSERT COPY DEC EXCL HALT INC INCL NEW
syntax keyword aosTodo contained TODO FIXME

syntax region aosComment start="(\*" end="\*)" contains=aosComment,aosTodo
syntax region aosString start=+"+ end=+"+ oneline
syntax region aosString start=+'+ end=+'+ oneline
syntax match aosNumber "\<\d\+\>"
syntax match aosNumber "\<\d[0-9A-F]*H\>"
syntax match aosCharacter "\<\d[0-9A-F]*X\>"
syntax match aosModifier "{\s*\(\(EXCLUSIVE\|ACTIVE\|PRIORITY\s*([^)]*)\|DELEGATE\)\s*,\?\s*\)\+}"

highlight default link aosStatement Statement
highlight default link aosDeclaration Keyword
highlight default link aosOperator Operator
highlight default link aosConstant Constant
highlight default link aosType Type
highlight default link aosFunction Function
highlight default link aosTodo Todo
highlight default link aosComment Comment
highlight default link aosString String
highlight default link aosNumber Number
highlight default link aosCharacter Character
highlight default link aosModifier PreProc

syntax sync fromstart

let b:current_syntax = "aos"
