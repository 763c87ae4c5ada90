# Completion of fle for bash: source this file, or put it where bash-completion looks.
_fle() {
  local word=${COMP_WORDS[COMP_CWORD]} verb=${COMP_WORDS[1]}
  local verbs="keygen keys mark encrypt encrypt-with decrypt show rewrap demo"
  COMPREPLY=()
  case $COMP_CWORD,$verb in
    1,*) mapfile -t COMPREPLY < <(compgen -W "$verbs --help --version" -- "$word") ;;
    2,keygen | 2,keys | 2,decrypt | 2,rewrap | 3,mark | 3,encrypt | 3,encrypt-with | 3,decrypt | 3,rewrap | \
      4,encrypt | 4,encrypt-with | 4,rewrap | 5,encrypt | 5,encrypt-with)
      mapfile -t COMPREPLY < <(compgen -f -- "$word") ;;
  esac
}
complete -o filenames -F _fle fle
