" Vim file type plugin: comments, and `:make`.

if exists("b:did_ftplugin")
  finish
endif
let b:did_ftplugin = 1

setlocal comments=s1:/*,mb:*,ex:*/ commentstring=/*\ %s\ */
compiler tempura
let b:undo_ftplugin = "setlocal comments< commentstring< makeprg< errorformat<"
