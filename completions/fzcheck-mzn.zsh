#compdef fzcheck-mzn
# What zsh offers behind `fzcheck-mzn`. Installed as _fzcheck-mzn in a folder where zsh looks for
# functions.
_arguments '(- *)'{-h,--help}'[print a page on the words]' \
  '(- *)--version[print the version]' \
  {-o+,--output=}'[read the plan from a file]:plan:_files' \
  '*--known=[judge claims, by the solutions of another plan too]:plan:_files' \
  '--strict[end with status 2 where a solution lacks names of the model]' \
  '--first[stop at the first constraint that fails]' \
  '--flatzinc[show the FlatZinc behind each constraint that fails]' \
  '--html=[write a page of the plan]:page:_files' \
  '--keep=[leave the model, the stream and the table of names in a folder]:folder:_files -/' \
  \*{-d,--data}'[read data from a file]:data:_files' \
  \*{-m,--model}'[read a model from a file]:model:_files' \
  \*{-D+,--cmdline-data}'[take this as data]:data: ' \
  '*--cmdline-json-data[take this as data in JSON]:data: ' \
  \*{-I+,--search-dir}'[look for included files in a folder]:folder:_files -/' \
  '--large[take a model of up to 1 GiB, and blocks as large]' \
  '--complete[look for values that the solver left out]' \
  '--complete-steps=[take so many steps at most in each search]:steps: ' \
  '--cut[judge the blocks before one in which the plan ends]' \
  '--claims=-[judge claims on the whole search]::how:(prove)' \
  '--tree=[prove claims along the search tree of the solver]:tree:_files' \
  '--explain=-[show what is behind a verdict]::what:(all)' \
  '--json[write the report as JSON]' \
  '*:model or data:_files -g "*.(mzn|dzn|json)(-.)"'
