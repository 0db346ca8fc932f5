" Modules of Cubical Type Theory, as ctt reads them.
if exists('b:did_ftplugin')
  finish
endif
let b:did_ftplugin = 1
setlocal comments=:-- commentstring=--\ %s
setlocal expandtab tabstop=8
setlocal iskeyword=@,48-57,_,'
compiler ctt
let b:undo_ftplugin = 'setlocal comments< commentstring< expandtab< tabstop< iskeyword<'
