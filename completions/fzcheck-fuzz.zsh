#compdef fzcheck-fuzz
# What zsh offers behind `fzcheck-fuzz`. Installed as _fzcheck-fuzz in a folder where zsh looks for
# functions. After -- comes the solver with its own options.
_arguments -S '(- *)'{-h,--help}'[print a page on the words]' \
  '(- *)'{-V,--version}'[print the version]' \
  '--seconds=[look for so long]:seconds: ' \
  '--models=[end after so many models of each job]:models: ' \
  '--faults=[end after so many causes of faults]:causes: ' \
  '--seed=[make the models of this seed]:seed: ' \
  '--names=[try these builtins]:names, or a file of them:_files' \
  '*--names-from=[try what these files declare without a body]:file:_files -g "*.mzn(-.)"' \
  '--from=[change the FlatZinc models in a folder]:folder:_files -/' \
  '*--known=[count faults that were found before]:folder or file:_files' \
  '--jobs=[run so many solvers at once]:jobs: ' \
  '--numbers=[choose some numbers near these]:low and high: ' \
  '--output=[put what is found into a folder]:folder:_files -/' \
  '--json[write the report as a JSON object]' \
  '--junit=[write a report in the form of JUnit, too]:file:_files' \
  '--limit=[end a run after so many seconds]:seconds: ' \
  '--all=[ask for all solutions by this option]:option: ' \
  '--reference=[hold the solutions of another solver against it]:solver:_command_names' \
  '*::solver:_normal'
