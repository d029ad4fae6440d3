# Completion of the words of `sts` for bash. To use it: source share/sts.bash
#
# The first word is one of six. The numbers after `gen` are the user's, and a document comes on standard input, so no other
# word is offered. After < and > come names of files, which bash does not complete there by itself.

_sts() {
  local current=${COMP_WORDS[COMP_CWORD]} before=${COMP_WORDS[COMP_CWORD - 1]}
  COMPREPLY=()
  case $current in
    '<' | '>' | '>>' | '2>') before=$current current= ;;
  esac
  case $before in
    '<' | '>' | '>>' | '2>')
      compopt -o filenames 2>/dev/null
      mapfile -t COMPREPLY < <(compgen -f -- "$current")
      ;;
    *)
      [ "$COMP_CWORD" -eq 1 ] || return 0
      mapfile -t COMPREPLY < <(compgen -W "find record check replay reduce gen" -- "$current")
      ;;
  esac
}

complete -F _sts sts ./sts
