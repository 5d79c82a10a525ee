# What bash offers behind `fzcheck-fuzz`. Installed as
# share/bash-completion/completions/fzcheck-fuzz, where bash-completion finds it; without that:
# source completions/fzcheck-fuzz.bash
_fzcheck_fuzz() {
  local word=${COMP_WORDS[COMP_CWORD]} offered=''
  # After -- comes the solver with its own options.
  if [[ $word == -* && " ${COMP_WORDS[*]:0:COMP_CWORD} " != *' -- '* ]]; then
    offered='-h --help -V --version --seconds --models --faults --seed --names --names-from --from'
    offered+=' --known --jobs --numbers --output --json --junit --limit --all --reference --'
  fi
  # shellcheck disable=SC2207
  COMPREPLY=($(compgen -W "$offered" -- "$word"))
}
complete -o default -F _fzcheck_fuzz fzcheck-fuzz
