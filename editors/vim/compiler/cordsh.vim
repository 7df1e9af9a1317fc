" :make reads the script without running it, and lists what cordsh-explain says of it
if exists('current_compiler')
  finish
endif
let current_compiler = 'cordsh'
CompilerSet makeprg=(cordsh-explain\ --show-plan\ %:S\ >/dev/null)
" FILE:LINE: text, then the line and its mark, then sentences after two blanks
CompilerSet errorformat=%E%f:%l:\ %m,%-C\ \ \ \ %.%#,%C\ \ %m,%-G%.%#
