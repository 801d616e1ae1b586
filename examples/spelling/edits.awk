# The machine of at most two edits over the letters of a symbol table: a letter changed, left out or put in, each of
# weight 1. Its state is the number of edits so far.
$2 { name[++count] = $1 }
END {
  for (edits = 0; edits < 3; edits++) {
    print edits
    for (i = 1; i <= count; i++) {
      print edits, edits, name[i], name[i]
      if (edits == 2) continue
      print edits, edits + 1, name[i], "<eps>", 1
      print edits, edits + 1, "<eps>", name[i], 1
      for (k = 1; k <= count; k++) if (i != k) print edits, edits + 1, name[i], name[k], 1
    }
  }
}
