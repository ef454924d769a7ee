" Vim syntax file for the jobs of zramsim, as docs/JOBS.md describes them.
" To use it, copy the folders of editors/vim into ~/.vim. What is in no group is a word that stands nowhere in a job.
if exists("b:current_syntax")
  finish
endif

syntax case match
syntax match zramsimError /[^ \t\r#]\+/

" a line's first word, and what may stand after it
syntax match zramsimActor /^[ \t]*\zsactor\ze[ \t\r]*\(#.*\)\?$/
syntax match zramsimRun /^[ \t]*\zsrun\ze[ \t\r]*\(#.*\)\?$/
syntax match zramsimAttribute /^[ \t]*\zs\(disksize\|mem_limit\)\ze[ \t]/ nextgroup=zramsimSize skipwhite
syntax match zramsimAttribute /^[ \t]*\zsbacking\ze[ \t]/ nextgroup=zramsimNumber skipwhite
syntax match zramsimAttribute /^[ \t]*\zswriteback_limit\ze[ \t]/ nextgroup=zramsimNumber skipwhite
syntax match zramsimAttribute /^[ \t]*\zswriteback_limit_enable\ze[ \t]/ nextgroup=zramsimSwitch skipwhite
syntax match zramsimAttribute /^[ \t]*\zsmem_used_max\ze[ \t]/ nextgroup=zramsimZero skipwhite
syntax match zramsimAttribute /^[ \t]*\zsclock\ze[ \t]/ nextgroup=zramsimNumber skipwhite
syntax match zramsimReport /^[ \t]*\zs\(mm_stat\|io_stat\|bd_stat\|states\|classes\)\ze[ \t\r]*\(#.*\)\?$/
syntax match zramsimOperation /^[ \t]*\zswrite\ze[ \t]/ nextgroup=zramsimWriteStart skipwhite
syntax match zramsimOperation /^[ \t]*\zs\(read\|discard\)\ze[ \t]/ nextgroup=zramsimStart skipwhite
syntax match zramsimOperation /^[ \t]*\zsidle\ze[ \t]/ nextgroup=zramsimAll,zramsimNumber skipwhite
syntax match zramsimOperation /^[ \t]*\zswriteback\ze[ \t]/ nextgroup=zramsimMode skipwhite
syntax match zramsimOperation /^[ \t]*\zscompact\ze[ \t\r]*\(#.*\)\?$/
syntax match zramsimSchedule /^[ \t]*\zsschedule\ze[ \t]/ nextgroup=zramsimTurn skipwhite

" values
syntax match zramsimSize /\d\+[KMGkmg]\?\ze\([ \t\r#]\|$\)/ contained
syntax match zramsimNumber /\d\+\ze\([ \t\r#]\|$\)/ contained
syntax match zramsimAll /all\ze\([ \t\r#]\|$\)/ contained
syntax match zramsimMode /\(idle\|huge\|huge_idle\)\ze\([ \t\r#]\|$\)/ contained
syntax match zramsimSwitch /0*[01]\ze\([ \t\r#]\|$\)/ contained
syntax match zramsimZero /0\+\ze\([ \t\r#]\|$\)/ contained
syntax match zramsimStart /\d\+\ze[ \t]/ contained nextgroup=zramsimCount skipwhite
syntax match zramsimCount /\d\+\ze\([ \t\r#]\|$\)/ contained
syntax match zramsimWriteStart /\d\+\ze[ \t]/ contained nextgroup=zramsimWriteCount skipwhite
syntax match zramsimWriteCount /\d\+\ze[ \t]/ contained nextgroup=zramsimFill,zramsimSeq,zramsimHex skipwhite
syntax match zramsimFill /fill\ze[ \t]/ contained nextgroup=zramsimLastWord skipwhite
syntax match zramsimSeq /seq\ze[ \t]/ contained nextgroup=zramsimBase skipwhite
syntax match zramsimHex /hex\ze[ \t]/ contained nextgroup=zramsimDigits skipwhite
syntax match zramsimBase /\x\{1,16}\ze[ \t]/ contained nextgroup=zramsimLastWord skipwhite
syntax match zramsimLastWord /\x\{1,16}\ze\([ \t\r#]\|$\)/ contained
syntax match zramsimDigits /\x\+\ze\([ \t\r#]\|$\)/ contained nextgroup=zramsimDigits skipwhite
syntax match zramsimTurn /\d\+\(\*\d\+\)\?\ze\([ \t\r#]\|$\)/ contained nextgroup=zramsimTurn skipwhite

syntax match zramsimComment /#.*$/ contains=@Spell

highlight default link zramsimComment Comment
highlight default link zramsimAttribute PreProc
highlight default link zramsimReport PreProc
highlight default link zramsimActor Structure
highlight default link zramsimRun Structure
highlight default link zramsimOperation Statement
highlight default link zramsimSchedule Repeat
highlight default link zramsimFill Type
highlight default link zramsimSeq Type
highlight default link zramsimHex Type
highlight default link zramsimSize Number
highlight default link zramsimNumber Number
highlight default link zramsimAll Type
highlight default link zramsimMode Type
highlight default link zramsimSwitch Number
highlight default link zramsimZero Number
highlight default link zramsimStart Number
highlight default link zramsimCount Number
highlight default link zramsimWriteStart Number
highlight default link zramsimWriteCount Number
highlight default link zramsimBase Number
highlight default link zramsimLastWord Number
highlight default link zramsimDigits Number
highlight default link zramsimTurn Special
highlight default link zramsimError Error

let b:current_syntax = "zramsim"
