" rproc-script. Made by tools/made.
if exists("b:current_syntax")
  finish
endif
syn case match
setlocal iskeyword+=-
syn keyword rprocCommand begin bind books boot caller channels close core crash detach drive driver dump end finish give handover image link mem nslink pump quiet raw reclaim recover recovery region reopen ring send shutdown state step table take trace unbind
syn keyword rprocRecipe announce carveout code devmem entry halt load log loop vdev vendor vring
syn keyword rprocChoice host remote std bare tcm pool mmufault watchdog fatal sink echo sample on off any last
syn match rprocNumber /\<\(0x\x\+\|\d\+\)\>/
syn match rprocComment /^\s*#.*$/
hi def link rprocCommand Statement
hi def link rprocRecipe Identifier
hi def link rprocChoice Constant
hi def link rprocNumber Number
hi def link rprocComment Comment
let b:current_syntax = "rproc-script"
