# Completion of fst for bash.
_fst() {
  local commands='arcsort batch closure compile compose concat connect determinize difference encode equivalent info intersect
    invert make minimize print project prune push relabel replace reverse rmepsilon shortestdistance shortestpath union'
  local word=${COMP_WORDS[COMP_CWORD]} option= options= values=
  COMPREPLY=()
  if [ "$COMP_CWORD" -eq 1 ]; then
    COMPREPLY=($(compgen -W "$commands" -- "$word"))
    return
  fi
  # The words of --option=value are three: the option, = and the value.
  if [ "$word" = = ]; then
    option=${COMP_WORDS[COMP_CWORD - 1]} word=
  elif [ "${COMP_WORDS[COMP_CWORD - 1]}" = = ]; then
    option=${COMP_WORDS[COMP_CWORD - 2]}
  fi
  case $option in
    --arc_type) values='boolean tropical minmax lexicographic' ;;
    --sort_type) values='ilabel olabel' ;;
    --queue_type) values='auto fifo lifo shortest' ;;
    --connect) values='true false' ;;
  esac
  if [ -n "$values" ]; then
    COMPREPLY=($(compgen -W "$values" -- "$word"))
    return
  fi
  case ${COMP_WORDS[1]#fst} in
    compile) options='--arc_type= --acceptor --keep_state_numbering --isymbols= --osymbols= --keep_isymbols --keep_osymbols' ;;
    print) options='--acceptor --show_weight_one --isymbols= --osymbols= --numeric' ;;
    closure) options='--closure_plus' ;;
    project) options='--project_output' ;;
    relabel) options='--relabel_ipairs= --relabel_opairs=' ;;
    arcsort) options='--sort_type=' ;;
    compose | intersect | difference) options='--connect= --max_states=' ;;
    rmepsilon) options='--connect= --queue_type=' ;;
    shortestdistance) options='--reverse --queue_type=' ;;
    shortestpath) options='--nshortest= --unique' ;;
    push) options='--push_weights --remove_total_weight --queue_type=' ;;
    encode) options='--encode_labels --encode_weights --decode' ;;
    determinize | equivalent) options='--max_states=' ;;
    minimize) options='--queue_type=' ;;
    prune) options='--weight= --queue_type=' ;;
    batch) options='--nshortest= --workers= --max_states= --summary' ;;
    make) options='--seed= --lines= --nshortest= --workers= --max_states=' ;;
  esac
  if [ -z "$option" ] && [ "${word#-}" != "$word" ]; then
    COMPREPLY=($(compgen -W "$options" -- "$word"))
    [[ ${COMPREPLY[0]} == *= ]] && compopt -o nospace
  else
    COMPREPLY=($(compgen -f -- "$word"))
    compopt -o filenames
  fi
}
complete -F _fst fst
