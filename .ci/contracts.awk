# The contracts of the functions of .rt files in rt fmt's layout, one clause a line, in fields between tabs: the file; the
# function, with its type or trait in front of it (`Meter::conflict`); whether it is public; `ensures` or `requires`; the
# clause's name, which may be empty; and the clause as it stands, with \001 where a line ends. A function without clauses
# is not told.

function flush_clause() {
  if (clause != "") printf "%s\t%s\t%d\t%s\t%s\t%s\n", FILENAME, (owner == "" ? "" : owner "::") name, is_public, kind, word, clause
  clause = ""
}

# The name of what an `impl` or a `trait` is of: the type behind `for`, where there is one.
function owner_of(line) {
  sub(/^(pub )?(unsafe )?(impl|trait)/, "", line)
  while (match(line, /<[^<>]*>/)) line = substr(line, 1, RSTART - 1) substr(line, RSTART + RLENGTH)
  sub(/^.* for /, "", line)
  sub(/^ +/, "", line)
  sub(/[^A-Za-z0-9_].*$/, "", line)
  return line
}

FNR == 1 { owner = header = name = ""; clause = "" }

/^}/ { owner = "" }

/^(pub )?(unsafe )?(impl|trait)[ <]/ { header = $0; is_open = $0 ~ /^pub trait/; of_trait = 0 }
header != "" && $0 != header { header = header " " $0 }
header != "" && header ~ /{/ { of_trait = is_open || header ~ / for /; owner = owner_of(header); header = "" }

/^(    )?(pub(\([a-z]+\))? )?(const )?(unsafe )?fn / && clause == "" {
  name = $0
  is_public = $0 ~ /^ *pub (const )?(unsafe )?fn / || (owner != "" && of_trait)
  if ($0 !~ /^ /) owner = ""
  sub(/^.*fn /, "", name)
  sub(/[^A-Za-z0-9_].*$/, "", name)
  if ($0 ~ /[{;]$/) name = ""
  next
}

# The body, or the end of a declaration.
name != "" && clause == "" && /^ *{/ { name = "" }

name != "" && clause == "" && /^ *(ensures|requires)[ *]/ {
  kind = $1
  word = $2 == "{" ? "" : $2
  depth = 0
  margin = match($0, /[^ ]/) - 1
}
name != "" && (clause != "" || /^ *(ensures|requires)[ *]/) {
  line = $0
  sub(/ *\/\/.*$/, "", line)
  if (substr(line, 1, margin) ~ /^ *$/) line = substr(line, margin + 1)
  rest = line
  depth += gsub(/{/, "", rest) - gsub(/}/, "", rest)
  ends = depth == 0 && line ~ /};$/
  if (ends) sub(/;$/, "", line)
  clause = clause == "" ? line : clause "\001" line
  if (depth == 0) flush_clause()
  if (ends) name = ""
}
