" For: messages of `mandoc -T lint` in vim's list of errors; :make jumps to the place of the first one.
" Needs: vim, and mandoc in the path (or its path in g:mandoc_program).
" Use: this folder's vim in 'runtimepath' (or the file in ~/.vim/compiler), then :compiler mandoc, and :make in a page
if exists('current_compiler')
  finish
endif
let current_compiler = 'mandoc'
let s:cpo = &cpo
set cpo&vim

execute 'CompilerSet makeprg=' . escape(get(g:, 'mandoc_program', 'mandoc') . ' -T lint -- %:S', ' \|"')
CompilerSet errorformat=%Emandoc:\ %f:%l:%c:\ ERROR:\ %m,
    \%Wmandoc:\ %f:%l:%c:\ WARNING:\ %m,
    \%Wmandoc:\ %f:%l:%c:\ UNSUPP:\ %m,
    \%Imandoc:\ %f:%l:%c:\ STYLE:\ %m,
    \%Imandoc:\ %f:%l:%c:\ BASE:\ %m,
    \%Emandoc:\ %m

let &cpo = s:cpo
unlet s:cpo
