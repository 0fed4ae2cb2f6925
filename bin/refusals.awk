# The answers by name, for the tables and for the words of an evening.
BEGIN { count = split("Book Range Known Full Unknown Stale Move Empty Line Step Room Halted", names, " ") }

function answer(number) {
  if (number == 0) return "done"
  return number <= count ? names[number] : "refusal " number
}
