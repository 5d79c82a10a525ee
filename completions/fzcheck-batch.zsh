#compdef fzcheck-batch
# What zsh offers behind `fzcheck-batch`. Installed as _fzcheck-batch in a folder where zsh looks for
# functions.
local state line
local -a both=('(- *)'{-h,--help}'[print a page on the words]' \
  '--results=[the folder of results]:folder:_files -/')
_arguments -C '(- *)'{-h,--help}'[print a page on the words]' \
  '(- *)--version[print the version]' \
  '1:command:((run\:"judge a season" report\:"who is wrong where" merge\:"take over results"))' \
  '*::word:->words' && return
case $line[1] in
  run)
    _arguments $both \
      '--models=[the models]:folder:_files -/' \
      '--streams=[where the streams are, with {solver} and {model}]:template: ' \
      '--times=[when blocks were printed]:template: ' \
      '--status=[what the solvers took and how they ended]:template: ' \
      '--names=[tables of names, with {model}]:template: ' \
      '--limit=[what one job may take]:limits: ' \
      '--shard=[judge one of several shares]:share: ' \
      '-j+[so many jobs side by side]:jobs: ' \
      '--complete[look for values that the solver left out]' \
      '--complete-steps=[take so many steps at most in each search]:steps: ' \
      '--cut[judge the blocks before one in which the stream ends]' \
      '--claims=-[judge claims on the whole search]::how:(prove)' \
      '--large[take models of up to 1 GiB, and blocks as large]'
    ;;
  report)
    _arguments $both \
      '--html=[write a page]:page:_files' \
      "--title=[the page's title]:title: " \
      '--csv=[write a table, a line for each pair]:table:_files' \
      '--scores=[write the scores, a line for each solver]:table:_files' \
      '--junit=[write a case for each stream in the form of JUnit]:file:_files'
    ;;
  merge) _arguments $both '*:folder:_files -/' ;;
esac
