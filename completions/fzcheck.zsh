#compdef fzcheck
# What zsh offers behind `fzcheck`. Installed as _fzcheck in a folder where zsh looks for functions.
local state line
local -a help=('(- *)'{-h,--help}'[print a page on the words]')
_arguments -C $help \
  '(- *)'{-V,--version}'[print the version]' \
  '1:command:((check\:"judge a solver'\''s output" show\:"print the model" help\:"print a page"))' \
  '*::word:->words' && return
case $line[1] in
  check)
    _arguments $help \
      '--large[take a model of up to 1 GiB, and blocks as large]' \
      '--complete[look for values that the solver left out]' \
      '--complete-steps=[take so many steps at most in each search]:steps: ' \
      '--cut[judge the blocks before one in which the stream ends]' \
      '--claims=-[judge claims on the whole search]::how:(prove)' \
      '--tree=[prove claims along the search tree of the solver]:tree:_files' \
      '*--known=[judge claims, by the blocks of another stream too]:stream:_files' \
      '--explain=-[show what is behind a verdict or a refusal]::what:(answer all every)' \
      '--names=[explain by the table of names of the MiniZinc compiler]:table of names:_files' \
      '--json[write the report as JSON]' \
      '1:model:_files' '2:stream:_files'
    ;;
  show)
    _arguments $help \
      '--large[take a model of up to 1 GiB]' \
      '--print-all[mark every variable as output]' \
      '1:model:_files'
    ;;
  help) _arguments '1:command:(check show)' ;;
esac
