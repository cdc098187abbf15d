" `:compiler drl`, then `:make`: the mistakes of this file, by `./try --where` of the clone that has this folder.
let current_compiler = "drl"
let &l:makeprg = fnameescape(expand("<sfile>:p:h:h:h:h:h") . "/try") . " --where %:S"
CompilerSet errorformat=%f:%l:%c:\ %m,%-G%.%#
