# The answers of a sheet as a table for people: three parts, each with its heading, and a row for each line. A refused row has its name and no figures.
# All figures are whole numbers; a rate's percent is cut from its digits and nothing is rounded. The price that gave the move has its name. It is run with
# refusals.awk, which has the names of the refusals.
BEGIN {
  titles["O"] = "Openings"
  heads["O"] = "instrument|answer"
  titles["D"] = "Days"
  heads["D"] = "instrument|day|answer|margin %|concentration %|preliminary %|V, square millionths|days since change|move from"
  titles["C"] = "Corridors"
  heads["C"] = "instrument|k|answer|lowest price|highest price"
}

# A rate of whole millionths, in percent with four decimals.
function percent(rate) { return sprintf("%d.%04d", int(rate / 10000), rate % 10000) }

function price(number) {
  if (number == 1) return "newer"
  return number == 2 ? "older" : "price " number
}

$1 == "L" {
  if ($2 == 0) print "The sheet is longer than 65,536 bytes. No row was run."
  else print "Line " $2 " breaks the form of the sheet. No row was run."
  bad = 1
  exit
}

{
  part = $1
  if (!(part in titles)) {
    print "table: no answer begins with " part > "/dev/stderr"
    failed = 1
    exit 1
  }
  row = ++rows[part]
  at = part == "O" ? 3 : 4
  if ($at != 0) refused[part]++
  for (i = 2; i <= NF; i++) {
    text = $i
    if (i == at) text = answer($i)
    else if (i > at && $at != 0) text = "-"
    else if (part == "D" && i >= 5 && i <= 7) text = percent($i)
    else if (part == "D" && i == 10) text = price($i)
    cells[part, row, i - 1] = text
  }
}

# Prints a part. Each column is as wide as its widest text; the names stand to the left, the numbers to the right.
function print_part(part, columns, i, r, line, text, width) {
  if (!rows[part]) {
    print titles[part] ": none"
    return
  }
  print titles[part] ": " rows[part] ", " (refused[part] ? refused[part] : "none") " refused"
  columns = split(heads[part], head, "|")
  for (i = 1; i <= columns; i++) {
    cells[part, 0, i] = head[i]
    width[i] = 0
    for (r = 0; r <= rows[part]; r++) if (length(cells[part, r, i]) > width[i]) width[i] = length(cells[part, r, i])
  }
  for (r = 0; r <= rows[part]; r++) {
    line = ""
    for (i = 1; i <= columns; i++) {
      text = sprintf("%" (head[i] ~ /^(answer|move from)$/ ? "-" : "") width[i] "s", cells[part, r, i])
      line = line "  " text
    }
    sub(/ +$/, "", line)
    print line
  }
}

END {
  if (bad || failed) exit failed
  print_part("O")
  print ""
  print_part("D")
  print ""
  print_part("C")
}
