# shellcheck shell=bash
# Completion of palvumiose for bash: `. scripts/completion.bash`. First the commands and options of
# the help, then files.
_palvumiose_program=${BASH_SOURCE[0]%/*}/palvumiose
[ -x "$_palvumiose_program" ] || _palvumiose_program=palvumiose # where it is installed
_palvumiose_words=$("$_palvumiose_program" --help | sed -n 's/^  \([a-z-]\{1,\}\) .*/\1/p')

_palvumiose() {
  local word=${COMP_WORDS[COMP_CWORD]}
  case ${COMP_WORDS[COMP_CWORD - 1]} in
  palvumiose | */palvumiose | why-not | --unproved | --prove)
    mapfile -t COMPREPLY < <(compgen -W "$_palvumiose_words" -- "$word")
    ;;
  *) mapfile -t COMPREPLY < <(compgen -f -- "$word") ;;
  esac
}

complete -o filenames -F _palvumiose palvumiose scripts/palvumiose
