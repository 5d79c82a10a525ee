# What bash offers behind `fzcheck-configure`. Installed as
# share/bash-completion/completions/fzcheck-configure, where bash-completion finds it; without that:
# source completions/fzcheck-configure.bash
_fzcheck_configure() {
  local word=${COMP_WORDS[COMP_CWORD]} offered=''
  [[ $word == -* ]] && offered='--library --remove --strict --help --version'
  # shellcheck disable=SC2207
  COMPREPLY=($(compgen -W "$offered" -- "$word"))
}
complete -F _fzcheck_configure fzcheck-configure
