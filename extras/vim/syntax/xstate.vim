" Vim syntax of xstate scripts. A line that no rule below takes whole stays plain, as it is misspelled or names no register.
if exists('b:current_syntax')
  finish
endif
syntax case match

" The lines before the blocks.
syntax match xstateHead /^xstate 1$/
syntax match xstateHead /^\(machine\|cpus\|quantum\|large\|row\|sched\)\ze / nextgroup=xstateNumber,xstateMachine skipwhite
syntax match xstateMachine /\<\(amx\|avx\|rows\)$/ contained

" Blocks.
syntax match xstateBlock /^\(task\|child\|kthread\)\ze / nextgroup=xstateName skipwhite
syntax match xstateBlock /^\(handler\|sigreturn\|end\)$/

" Lines of a block that touch their own task.
syntax match xstateLocal /^\(set\|get\)\ze / nextgroup=xstateRegister skipwhite
syntax match xstateLocal /^\(ksec\)\ze / nextgroup=xstateBytes skipwhite
syntax match xstateLocal /^\(perm\|peek\|poke\|bpeek\|bpoke\)\ze / nextgroup=xstateNumber skipwhite
syntax match xstateLocal /^\(tilerelease\|yield\)$/

" Lines that reach other blocks.
syntax match xstateOuter /^\(fork\|kill\|wait\|getregs\|setregs\|cont\)\ze / nextgroup=xstateName skipwhite
syntax match xstateOuter /^stop$/

syntax match xstateRegister /\<\(mxcsr\|pkru\|f[cst]w\|fop\|f[id]p\|tilecfg\|\(st\|k\)[0-7]\|\(xmm\|ymmh\|zmmh\)\([0-9]\|1[0-5]\)\|zmm\(1[6-9]\|2[0-9]\|3[01]\)\|tmm[0-7]\.\([0-9]\|1[0-5]\)\)\ze\( \|$\)/ contained nextgroup=xstateBytes skipwhite
syntax match xstateName /\<[a-z][a-z0-9]\{0,15}\>/ contained nextgroup=xstateNumber,xstateSet skipwhite
syntax match xstateSet /\<\(xstate\|fx\)\>/ contained nextgroup=xstateNumber skipwhite
syntax match xstateBytes /\<\([0-9a-f]\{2}\)\+$/ contained
syntax match xstateNumber /\<\(0\|[1-9]\d*\)\>/ contained nextgroup=xstateNumber,xstateBytes skipwhite

highlight default link xstateHead PreProc
highlight default link xstateMachine Constant
highlight default link xstateBlock Keyword
highlight default link xstateLocal Statement
highlight default link xstateOuter Function
highlight default link xstateRegister Identifier
highlight default link xstateName Type
highlight default link xstateSet Constant
highlight default link xstateBytes String
highlight default link xstateNumber Number

let b:current_syntax = 'xstate'
