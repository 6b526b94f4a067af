" :compiler m_tax, then :make run LIST DRIVER REQUESTS HOUSEHOLD goes to the place of a refusal. Start Vim at the top of the repository.
if exists("current_compiler")
  finish
endif
let current_compiler = "m_tax"
CompilerSet makeprg=tools/explain\ --places
CompilerSet errorformat=%f:%l:%c:\ error:\ %m
CompilerSet errorformat+=refused\ %f\ line\ %l\ byte\ %*[0-9]:\ %m,slip\ %f\ line\ %l\ byte\ %*[0-9]:\ %m
CompilerSet errorformat+=fault\ %f\ line\ %l\ byte\ %*[0-9]:\ %m
