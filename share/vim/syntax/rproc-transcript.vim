" rproc-transcript. Made by tools/made.
if exists("b:current_syntax")
  finish
endif
syn case match
setlocal iskeyword+=-
syn keyword rprocBad closed crashed fault dead busy dropped malformed refused unknown already stopped missing too-large no-link no-caller in-call no-call not-held too-long no-buffer book-full not-running broken
syn keyword rprocGood open running attached detached offline idle ok reclaimed
syn keyword rprocDone sent took gave bound unbound begun caller pumped books
syn match rprocNumber /\<\(0x\x\+\|\d\+\)\>/
hi def link rprocBad Statement
hi def link rprocGood Identifier
hi def link rprocDone Constant
hi def link rprocNumber Number
let b:current_syntax = "rproc-transcript"
