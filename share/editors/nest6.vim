" Vim and Neovim: `:make` runs nest6 on the file that is edited, and goes to the line of its fault, or of what is refused.
"   copy this file to ~/.vim/compiler/ (Neovim: ~/.config/nvim/compiler/), and say `:compiler nest6` in a C file
" Options may stand behind it: `:make --fuel=100`. What the program prints is not shown.

if exists("current_compiler")
  finish
endif
let current_compiler = "nest6"

" The messages of nest6 do not name the file, so a line before them does.
CompilerSet makeprg=(echo\ nest6\ reads\ %:S;\ nest6\ run\ $*\ %:S\ 2>&1\ >/dev/null)
CompilerSet errorformat=%-Pnest6\ reads\ %f
CompilerSet errorformat+=%+Efault:\ %.%#\ at\ line\ %l
CompilerSet errorformat+=%+Erefused:\ %.%#\ at\ line\ %l
