# What bash offers behind `fzcheck-shrink`. Installed as
# share/bash-completion/completions/fzcheck-shrink, where bash-completion finds it; without that:
# source completions/fzcheck-shrink.bash
_fzcheck_shrink() {
  local word=${COMP_WORDS[COMP_CWORD]} offered=''
  # After -- comes the solver with its own options.
  if [[ $word == -* && " ${COMP_WORDS[*]:0:COMP_CWORD} " != *' -- '* ]]; then
    offered='-h --help -V --version --seconds --known --output --limit --all --reference --'
  fi
  # shellcheck disable=SC2207
  COMPREPLY=($(compgen -W "$offered" -- "$word"))
}
complete -o default -F _fzcheck_shrink fzcheck-shrink
