# A part of the launcher: shows of each file of a source whether the program opens it for output, and its external name,
# with a tab between. It looks for SELECT .. ASSIGN TO and for OPEN OUTPUT in the fixed form.

function take(token,   word) {
  word = toupper(token)
  if (word == "SELECT") { state = "file"; is_open = 0 }
  else if (state == "file") { if (word != "OPTIONAL") { file = word; state = "select" } }
  else if (state == "select" && word == "ASSIGN") state = "assign"
  else if (state == "assign") { if (word != "TO") { name[file] = external(token); state = "" } }
  else if (word == "OPEN") is_open = 1
  else if (is_open && word ~ /^(INPUT|OUTPUT|I-O|EXTEND)$/) is_output = word != "INPUT"
  else if (is_open && word in name) { if (is_output) output[word] = 1 }
  else is_open = 0
}

# The name that a word or a literal gives a file.
function external(token) {
  return token ~ /^["']/ ? substr(token, 2, length(token) - 2) : toupper(token)
}

substr($0, 7, 1) ~ /[*\/Dd]/ { next }

{
  sub(/\r$/, "")
  line = substr($0, 8, 65)
  if (!state && !is_open && toupper(line) !~ /SELECT|OPEN/) next
  while (match(line, /"[^"]*"?|'[^']*'?|[A-Za-z0-9-]+|\./)) {
    take(substr(line, RSTART, RLENGTH))
    line = substr(line, RSTART + RLENGTH)
  }
}

END { for (file in name) print (file in output ? "output" : "input") "\t" name[file] }
