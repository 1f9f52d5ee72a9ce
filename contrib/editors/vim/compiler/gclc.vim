" Vim compiler file for gclc: after `:compiler gclc`, `:make` reads the figure, and `:copen` shows what is refused.
" g:gclc is the command, where it is not on the path.
if exists("current_compiler")
  finish
endif
let current_compiler = "gclc"
let s:errors = shellescape(expand("<sfile>:p:h:h:h:h") . "/errors")
let s:gclc = get(g:, "gclc", "gclc")
let &l:makeprg = s:gclc . " svg %:S 2>&1 >/dev/null \\| " . s:errors . " %:S"
setlocal errorformat=%f:%l:\ %m
