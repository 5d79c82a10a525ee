# What bash offers behind `fzcheck`. Installed as share/bash-completion/completions/fzcheck, where
# bash-completion finds it; without that: source completions/fzcheck.bash
_fzcheck() {
  local word=${COMP_WORDS[COMP_CWORD]} before=${COMP_WORDS[COMP_CWORD - 1]} command=${COMP_WORDS[1]}
  local offered='-h --help' named=$before
  # The shell splits --explain=all at the =.
  if [[ $word == '=' ]]; then
    word='' before='='
  elif [[ $before == '=' ]]; then
    named=${COMP_WORDS[COMP_CWORD - 2]}
  fi
  if ((COMP_CWORD == 1)); then
    offered+=' check show help -V --version'
  elif [[ $before == '=' && $named == --claims ]]; then
    offered='prove'
  elif [[ $before == '=' && $named == --explain ]]; then
    offered='answer all every'
  elif [[ $command == help ]]; then
    offered='check show'
  elif [[ $before == --known || $before == --names || $before == --tree || $word != -* ]]; then
    offered='' # a file: where nothing is offered here, the shell offers files
  elif [[ $command == check ]]; then
    offered+=' --large --complete --complete-steps --cut --claims --claims=prove --known --explain'
    offered+=' --explain=all --explain=every --names --tree --json'
  elif [[ $command == show ]]; then
    offered+=' --large --print-all'
  fi
  # shellcheck disable=SC2207
  COMPREPLY=($(compgen -W "$offered" -- "$word"))
}
complete -o default -F _fzcheck fzcheck
