# What was refused of a sheet, by its answers: a line for each opening, with the sheet's line and whether another line opened the instrument, and one with
# the number of the days. It is run with refusals.awk, which has the names of the refusals.
$1 == "O" {
  instrument[++openings] = $2
  number[openings] = $3
  if ($3 == 0) opened[$2] = openings + 1
  next
}
$1 == "D" {
  days++
  if ($4 != 0) refused++
  next
}
$1 != "C" {
  failed = 1
  exit 1
}

END {
  if (failed) exit 1
  for (i = 1; i <= openings; i++) {
    if (number[i] == 0) continue
    stands = "it is not in the evening sheet"
    if (instrument[i] in opened) stands = "it is in the evening sheet by line " opened[instrument[i]] ", not by this one"
    print "line " (i + 1) ": the opening of " instrument[i] " was refused as " number[i] ", " answer(number[i]) "; " stands
  }
  if (refused) print refused " of " days " days " (refused == 1 ? "was" : "were") " refused"
}
