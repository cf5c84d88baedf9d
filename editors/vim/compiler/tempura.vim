" Vim compiler file: `:make` runs the program in the buffer, and goes to the place where its source is refused.
" The command is `tempura`, or what `g:tempura_command` says; options stand behind `:make`, as in `:make --states 20`.

if exists("current_compiler")
  finish
endif
let current_compiler = "tempura"

let s:command = get(g:, "tempura_command", "tempura")
execute 'CompilerSet makeprg=' . escape(s:command . ' --cases $* -- %:S', ' \|"')

" A line `== FILE` stands in front of what its run prints, and a line `status` behind it.
CompilerSet errorformat=%-P==\ %f,source\ refused:\ line\ %l\ column\ %c:\ %m,%-Qstatus\ %.%#,%-G%.%#
