# What a listing says, in plain words: the row of docs/refusals.tsv with its number, the lines of the file that it is about, and the very fault of a line.
#   od -An -v -tu1 FILE | awk -f docs/explain.awk FS='\t' docs/refusals.tsv FS=' ' -
# with NAME (how to call the file), NUMBER (0 where it is accepted), FIRST and SECOND (what stands in the inner brackets) in the environment.
# Every line before the one that is refused is a form, spelled exactly; nothing is known of that one and of those after it.

BEGIN {
  number = ENVIRON["NUMBER"] + 0
  first = ENVIRON["FIRST"]
  second = ENVIRON["SECOND"]
  kinds = split("row right guess inverse", kind, " ")
  split("problem scale row right guess inverse weight end", parts, " ")
  for (k in parts) is_word[parts[k]] = 1
  # The numbers of each form by the letters of docs/FORMAT.md, the last of them as often as there are more.
  letters["problem"] = "n"; letters["scale"] = "s t"; letters["row"] = "i a"; letters["right"] = "i b d"
  letters["guess"] = "i X"; letters["inverse"] = "i g"; letters["weight"] = "i w"
  meant["n"] = "the number of marks n"; meant["s"] = "the solution scale s"; meant["t"] = "the inverse scale t"; meant["i"] = "the place i"
  meant["a"] = "of the row"; meant["g"] = "of the row of the inverse"; meant["b"] = "the right side b"; meant["d"] = "the tolerance d"
  meant["X"] = "the guess X"; meant["w"] = "the weight w"
  for (k = 32; k < 127; k++) shown[k] = sprintf("%c", k)
  is_of_line = number >= 1 && number <= 4 || number == 11 || number == 12 || number == 14
}

# The table comes first.
FNR == NR && $1 == number { what = $2; must = $3; cure = $4 }
FNR == NR { next }

{ for (k = 1; k <= NF; k++) take_byte($k + 0) }

END {
  is_cut = bytes == 65536 # no more of a file is handed over
  if (size) take_line()
  expected = expected ? expected : must
  gsub(/`/, "", expected)
  gsub(/`/, "", cure)
  if (number == 0) {
    print "register: " ENVIRON["NAME"] " is " what
    print "  concluded: " expected
    if (!tolerances) print "  note: the file gives no tolerance, so the limits are about solving these equations alone, and not about the measuring"
    print "  to do: " cure
  } else {
    print "register: " ENVIRON["NAME"] " is refused with " number ": " what
    print "  found: " found()
    if (fault) print "  fault: " fault
    print "  expected: " expected
    print "  to do: enter nothing, change nothing in the file, and send it with these lines to whoever wrote it"
    print "  for whoever wrote it: " cure
  }
}

# The bytes of a line and, of a character that is not ASCII, a question mark.
function take_byte(b) {
  bytes++
  if (b == 10) {
    take_line()
  } else if (++size <= 400) {
    code[size] = b
    text = text (b in shown ? shown[b] : b >= 128 && b < 192 ? "" : "?")
  }
}

function take_line() {
  lines++
  last = quoted(text)
  if (is_of_line && lines == first) {
    line = last
    fault = fault_of_line()
  } else if (!end_at && (!is_of_line || lines < first)) {
    note_form()
  }
  size = 0
  text = ""
}

function quoted(text) {
  if (size && code[size] == 13) sub(/\?$/, "", text)
  if (has_mark()) sub(/^\?/, "", text)
  return "\"" (length(text) > 100 ? substr(text, 1, 100) " .." : text) "\""
}

function has_mark() { return lines == 1 && size > 2 && code[1] == 239 && code[2] == 187 && code[3] == 191 }

# A line that is a form, in parts: its word and its numbers.
function take_apart(text) {
  gsub(/[()]/, "", text)
  return split(text, part, " ")
}

function key() { return part[1] " " (part[1] == "problem" || part[1] == "scale" ? "" : part[2]) }

function note_form(    count) {
  count = take_apart(text)
  if (text == "(end)") end_at = lines
  if (part[1] == "problem") n = part[2] + 0
  if (part[1] == "right" && count == 4 && part[4] + 0 > 0) tolerances++
  if (!(key() in given)) { given[key()] = lines; form[key()] = text }
  if (number == 5 && key() == "inverse " first || number == 7 && key() == "row " second) quote = last
  if (number == 6 && (key() == "row " first || key() == "right " first)) quote = quote (quote ? " and " : "") last
}

# What the refusal is about.
function found() {
  if (number == 5) return "row " first " of the inverse is " quote
  if (number == 6) return "equation " first " is " quote
  if (number == 7) return "column " first " of the inverse does not fit equation " second ", which is " quote
  if (number == 13) return missing() " missing"
  if (number == 15) return lines ? "the last line is " last : "the file is empty"
  return "line " first " is " line
}

# The first forms that are missing, by name.
function missing(    k, i, count, names) {
  for (k = 1; k <= kinds; k++)
    for (i = 1; i <= n; i++)
      if (!((kind[k] " " i) in given) && ++count <= 8) names = names (count > 1 ? ", " : "") kind[k] " " i
  return names (count > 8 ? " and " (count - 8) " more" : "") (count > 1 ? " are" : " is")
}

function fault_of_line() {
  if (number == 1) return "it has " size " bytes" (is_cut ? " or more" : "")
  if (number == 2) return spelling()
  if (number == 3) return range()
  if (number == 4) return "its list has " numbers(take_apart(text) - 2) ", and there should be " n
  if (number == 11) return "no " (("problem " in given) ? "scale" : "problem") " stands before it"
  if (number == 12) return repeated()
  return "the end is line " end_at
}

function numbers(count) { return count " number" (count == 1 ? "" : "s") }

# 12: where the form was given first, and whether both say the same.
function repeated(    old, words) {
  take_apart(text)
  old = form[key()]
  words = "line " given[key()] " gave it first, as " quoted(old) ", and the two "
  return words (old == text ? "are the same" : meaning(old) == meaning(text) ? "have the same numbers" : "differ")
}

# The word and the numbers of a form, with the tolerance of 0 that a right side by itself has.
function meaning(text,    count, k, words) {
  count = take_apart(text)
  for (k = 1; k <= count; k++) words = words " " part[k]
  return words (part[1] == "right" && count == 3 ? " 0" : "")
}

# 3: the first number outside its range, i before the others; the ranges are those of the table.
function range(    count, letter, k, names, at) {
  read_ranges()
  count = take_apart(text)
  for (k = 2; k <= count; k++) {
    at = split(letters[part[1]], letter, " ")
    at = k - 1 < at ? k - 1 : at
    if (!is_outside(letter[at], part[k])) continue
    expected = letter[at] ": " ranges[letter[at]] (letter[at] == "i" ? ", and n is " n : "")
    names = meant[letter[at]]
    if (letter[at] == "a" || letter[at] == "g") names = "number " (k - 2) " " names
    return names " is " (length(part[k]) > 40 ? substr(part[k], 1, 40) ".." : part[k])
  }
  return ""
}

function read_ranges(    pieces, piece, sides, names, count, ends, k, j) {
  pieces = split(must, piece, "; ")
  for (k = 1; k <= pieces; k++) {
    split(piece[k], sides, ": ")
    count = split(sides[1], names, ", ")
    split(sides[2], ends, " to ")
    for (j = 1; j <= count; j++) {
      ranges[names[j]] = sides[2]
      low[names[j]] = value(ends[1])
      high[names[j]] = ends[2] == "n" ? n : value(ends[2])
    }
  }
}

function value(text,    sign, power) {
  gsub(/,/, "", text)
  sign = sub(/^-/, "", text) ? -1 : 1
  return sign * (split(text, power, /\^/) == 2 ? power[1] ^ power[2] : text + 0)
}

function is_outside(letter, text) { return length(text) > 15 || text + 0 < low[letter] || text + 0 > high[letter] }

# 2: the first thing by which a line is no form, and the form that was meant, by its word.
function spelling(    word, at) {
  word = match(text, /[A-Za-z]+/) ? tolower(substr(text, RSTART, RLENGTH)) : ""
  expected = word in is_word ? spelled(word) : "a form, as docs/FORMAT.md has them"
  if (size == 0) return "it is empty"
  if (has_mark()) return "it begins with a byte order mark, three bytes that an editor does not show"
  if (code[size] == 13) return "it ends with a carriage return before its line feed, as lines written on Windows do"
  for (at = 1; at <= size; at++) if (!(code[at] in shown)) return odd_byte(at) " stands at character " at
  if (at = index(text, ",")) return "a comma stands at character " at "; numbers have a single space between them and no separators"
  if (match(text, /[0-9]\.|\.[0-9]/)) return "a number with a decimal point stands at character " RSTART "; all numbers are whole"
  if (text ~ /^ +$/) return "it has spaces alone"
  if (text ~ /^ /) return "a space stands before its first bracket"
  if (text ~ / $/) return "a space stands after its last bracket"
  if (at = index(text, "  ")) return "two spaces stand at character " at ", where one belongs"
  return structure()
}

# The spellings of the form with this word, out of the table.
function spelled(word,    count, piece, k, names) {
  count = split(must, piece, "`")
  for (k = 1; k <= count; k++) if (piece[k] ~ ("^\\(" word "[ )]")) names = names (names ? " or " : "") piece[k]
  return names
}

function odd_byte(at) {
  if (code[at] == 9) return "a tab"
  if (code[at] == 13) return "a carriage return"
  if (code[at] < 128) return "a control byte of value " code[at]
  if (code[at] == 226 && (code[at + 1] == 136 && code[at + 2] == 146 || code[at + 1] == 128 && code[at + 2] >= 144 && code[at + 2] <= 149)) return "a minus sign or dash that is not the - of ASCII"
  if (code[at] == 194 && code[at + 1] == 160) return "a space that is not the one of ASCII"
  return "a character that is not ASCII"
}

# A line of ASCII with single spaces: brackets, word and numbers.
function structure(    at, depth, close_at, inner, word, open, plain, list, listed, fault) {
  if (substr(text, 1, 1) != "(") return "it does not begin with an opening round bracket"
  for (at = 1; at <= size && !close_at; at++) {
    if (substr(text, at, 1) == "(") depth++
    if (substr(text, at, 1) == ")" && --depth == 0) close_at = at
  }
  if (!close_at) return "a closing bracket is missing"
  if (close_at < size) return (substr(text, close_at + 1, 1) == "(" ? "a second form stands after the first" : "more stands after its last bracket") ", at character " (close_at + 1)
  inner = substr(text, 2, size - 2)
  word = inner
  sub(/ .*/, "", word)
  if (!(word in is_word)) return (tolower(word) in is_word) ? "the word " word " has capital letters" : "\"" word "\" is none of the words problem, scale, row, right, guess, inverse, weight and end"
  if (match(text, /\( | \)|[^ (]\(/)) return "a space is missing, or one too many, beside the bracket at character " RSTART
  if (match(text, /\)[^)]/)) return "more stands after its list, at character " (RSTART + 1)
  inner = substr(inner, length(word) + 2)
  open = index(inner, "(")
  list = open ? substr(inner, open + 1, length(inner) - open - 1) : ""
  if (list ~ /[()]/) return "it has a list more than its form"
  plain = split(open ? substr(inner, 1, open - 1) : inner, part, " ")
  fault = bad_number(plain)
  if (fault) return fault
  listed = split(list, part, " ")
  fault = bad_number(listed)
  if (fault) return fault
  if (word == "row" || word == "inverse" || word == "right" && open) {
    if (!open) return "its numbers after i do not stand in brackets of their own"
    if (plain != 1) return "before its list stand " numbers(plain) ", and there should be 1, i"
  }
  if (word == "row" || word == "inverse") return "its list is empty"
  if (word == "right" && open) return "its list has " numbers(listed) ", and there should be 2, b and its tolerance d"
  if (open) return "it has a list, and its form has none"
  return "it has " numbers(plain) ", and there should be " split(letters[word], part, " ") - (word == "right")
}

# What is wrong with one of the numbers in `part`; nothing where none is.
function bad_number(count,    k) {
  for (k = 1; k <= count; k++) {
    if (part[k] ~ /^-?0[0-9]/) return "the number " part[k] " has a leading zero"
    if (part[k] == "-0") return "-0 is no number; it is 0"
    if (part[k] ~ /^[+]/) return "the number " part[k] " has a plus sign"
    if (part[k] !~ /^(0|-?[1-9][0-9]*)$/) return "\"" part[k] "\" is no whole number"
  }
  return ""
}
