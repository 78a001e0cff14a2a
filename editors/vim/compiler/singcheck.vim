" `:make` checks the file of the buffer and puts the findings into the quickfix list. `:make --why` adds the trace of each finding.
if exists('current_compiler')
  finish
endif
let current_compiler = 'singcheck'
if exists(':CompilerSet') != 2
  command -nargs=* CompilerSet setlocal <args>
endif

" The repository: this file is in editors/vim/compiler.
let s:top = fnamemodify(resolve(expand('<sfile>:p')), ':h:h:h:h')
let s:check = escape(shellescape(s:top . '/tools/check'), '%#') . ' $* --format plain -- %:p:S'
execute 'CompilerSet makeprg=' . escape(s:check, ' \|"')
CompilerSet errorformat=%f:%l:%c:\ %m
