" Vim syntax of task texts (as ~/.vim/syntax/ocr.vim, with `set filetype=ocr` for *.ocr). A test of
" crates/ocr_tests_text compares the three lists of names with the grammar's.
if exists("b:current_syntax")
  finish
endif

syn keyword ocrWord fn let if else while print return paramc paramv depc depv code
syn keyword ocrCall ocrDbCreate ocrDbRelease ocrDbDestroy
syn keyword ocrCall ocrEventCreate ocrEventCreateParams ocrEventDestroy
syn keyword ocrCall ocrEventSatisfy ocrEventSatisfySlot ocrAddDependence
syn keyword ocrCall ocrEdtTemplateCreate ocrEdtTemplateDestroy ocrEdtCreate
syn keyword ocrCall ocrShutdown ocrAbort load store
syn keyword ocrConstant NULL_GUID UNINITIALIZED_GUID EDT_PARAM_UNK EDT_PARAM_DEF
syn keyword ocrConstant EDT_PROP_NONE EDT_PROP_FINISH DB_PROP_NONE DB_PROP_NO_ACQUIRE
syn keyword ocrConstant EVT_PROP_NONE EVT_PROP_TAKES_ARG
syn keyword ocrConstant OCR_EVENT_LATCH_DECR_SLOT OCR_EVENT_LATCH_INCR_SLOT
syn keyword ocrConstant DB_MODE_NULL DB_MODE_RO DB_MODE_CONST DB_MODE_RW DB_MODE_EW
syn keyword ocrConstant OCR_EVENT_ONCE_T OCR_EVENT_IDEM_T OCR_EVENT_STICKY_T
syn keyword ocrConstant OCR_EVENT_LATCH_T OCR_EVENT_CHANNEL_T
syn match ocrNumber "\d\+"
syn match ocrOperator "[-=!<>+*/%&|^~]"
syn match ocrComment "#.*$"

hi def link ocrWord Keyword
hi def link ocrCall Function
hi def link ocrConstant Constant
hi def link ocrNumber Number
hi def link ocrOperator Operator
hi def link ocrComment Comment

let b:current_syntax = "ocr"
