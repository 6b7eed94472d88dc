" :compiler mmt, and then :make FOLDER: the causes of refusals become the list of errors. `mmt` has to be on the search path, or
" set g:mmt_launcher to the place of the launcher.
if exists("current_compiler")
  finish
endif
let current_compiler = "mmt"

execute 'CompilerSet makeprg=' . escape(shellescape(get(g:, 'mmt_launcher', 'mmt')) . ' --quiet causes $*', ' \|"')
CompilerSet errorformat=%f:%l:%c:\ %trror:\ %m,%-G%.%#
