# What bash offers behind `fzcheck-batch`. Installed as
# share/bash-completion/completions/fzcheck-batch, where bash-completion finds it; without that:
# source completions/fzcheck-batch.bash
_fzcheck_batch() {
  local word=${COMP_WORDS[COMP_CWORD]} command=${COMP_WORDS[1]} offered=''
  if ((COMP_CWORD == 1)); then
    offered='run report merge --help --version'
  elif [[ $word == -* ]]; then
    offered='--help --results'
    case $command in
      run)
        offered+=' --models --streams --times --status --names --limit --shard -j'
        offered+=' --complete --complete-steps --cut --claims=prove --large'
        ;;
      report) offered+=' --html --title --csv --scores --junit' ;;
    esac
  fi
  # shellcheck disable=SC2207
  COMPREPLY=($(compgen -W "$offered" -- "$word"))
}
complete -o default -F _fzcheck_batch fzcheck-batch
