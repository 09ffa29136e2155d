" :make looks at the deck by tools/why, and leads to the line of each fault.
if exists('current_compiler')
  finish
endif
let current_compiler = 'stretch'

let s:why = resolve(expand('<sfile>:p:h') . '/../../../tools/why')
let s:why = executable('stretch-why') ? 'stretch-why' : s:why
execute 'CompilerSet makeprg=' . escape(s:why . ' --lines %:S', ' \')
CompilerSet errorformat=%f:%l:%c:\ %trror:\ %m,%f:%l:%c:\ %tarning:\ %m
