# Completion of the scripts beside fst for bash: the options that --help has.
_fst_script() {
  local word=${COMP_WORDS[COMP_CWORD]}
  COMPREPLY=()
  case $word in
    -*)
      COMPREPLY=($(compgen -W "$("$1" --help 2> /dev/null | sed -n 's/^  \(--[a-z_]*\) [A-Z{].*/\1=/p; t; s/^  \(--[a-z_]*\).*/\1/p')" -- "$word"))
      [[ ${COMPREPLY[0]} == *= ]] && compopt -o nospace
      ;;
    *)
      COMPREPLY=($(compgen -f -- "$word"))
      compopt -o filenames
      ;;
  esac
}
complete -F _fst_script fst-edits fst-from-arpa fst-from-att fst-from-openfst fst-from-words fst-lookup fst-random fst-symbols fst-to-att fst-to-bytes fst-to-dot fst-to-openfst fst-to-strings
