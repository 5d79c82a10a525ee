#compdef fzcheck-shrink
# What zsh offers behind `fzcheck-shrink`. Installed as _fzcheck-shrink in a folder where zsh looks
# for functions. After -- comes the solver with its own options.
_arguments -S '(- *)'{-h,--help}'[print a page on the words]' \
  '(- *)'{-V,--version}'[print the version]' \
  '--seconds=[go on for so long]:seconds: ' \
  '*--known=[hold the solutions in a stream against the claims]:stream:_files' \
  '--output=[put the small model, a report and a script into a new folder]:folder:_files -/' \
  '--limit=[end a run after so many seconds]:seconds: ' \
  '--all=[ask for all solutions by this option]:option: ' \
  '--reference=[hold the solutions of another solver against it]:solver:_command_names' \
  '1:model:_files -g "*.fzn(-.)"' '*::solver:_normal'
