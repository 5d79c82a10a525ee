#compdef fzcheck-configure
# What zsh offers behind `fzcheck-configure`. Installed as _fzcheck-configure in a folder where zsh
# looks for functions.
_arguments -S '(- *)--help[print a page on the words]' '(- *)--version[print the version]' \
  '(--remove)--library[add one that is checked against what our library makes]' \
  '(--remove)--strict[end with status 1 where what is printed is not accepted]' \
  '(--library --strict)--remove[take both away]' '1:solver: '
