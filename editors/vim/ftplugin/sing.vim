" Settings for Sing# files: the form of comments, the indentation, and `:make` as a check.
if exists('b:did_ftplugin')
  finish
endif
let b:did_ftplugin = 1

setlocal commentstring=//\ %s comments=s1:/*,mb:*,ex:*/,://
setlocal cindent cinoptions=:1s,l1,j1
compiler singcheck
let b:undo_ftplugin = 'setlocal commentstring< comments< makeprg< errorformat< cindent< cinoptions<'
