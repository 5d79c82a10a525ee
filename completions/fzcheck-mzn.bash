# What bash offers behind `fzcheck-mzn`. Installed as
# share/bash-completion/completions/fzcheck-mzn, where bash-completion finds it; without that:
# source completions/fzcheck-mzn.bash
_fzcheck_mzn() {
  local word=${COMP_WORDS[COMP_CWORD]} before=${COMP_WORDS[COMP_CWORD - 1]} offered=''
  # Where no option stands, the shell offers files.
  if [[ $before == --claims && $word == '=' ]]; then
    offered='prove' word=''
  elif [[ $before == --explain && $word == '=' ]]; then
    offered='all' word=''
  elif [[ $word == -* ]]; then
    offered='-h --help --version -o --output --known --strict --first --flatzinc --html --keep'
    offered+=' -d --data -m --model -D --cmdline-data --cmdline-json-data -I --search-dir'
    offered+=' --large --complete --complete-steps --cut --claims --claims=prove --explain'
    offered+=' --explain=all --tree --json'
  fi
  # shellcheck disable=SC2207
  COMPREPLY=($(compgen -W "$offered" -- "$word"))
}
complete -o default -F _fzcheck_mzn fzcheck-mzn
