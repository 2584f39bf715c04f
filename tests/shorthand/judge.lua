-- Judges the letters of a text in shorthand with LPeg, a recognizer made elsewhere (Debian's lua-lpeg).
--
--   lua5.4 judge.lua TEXT ENTRY
--
-- Both are files; the text is one that is accepted. For each letter, by first appearance, it prints a line: the letter, and its outcome at each
-- place of the entry, or "left recursion" where LPeg refuses the rules that the letter comes to. The outcomes are numbers:
--
--   5 + END success | 1 failure | 3 missing
--
-- A letter is an LPeg rule, a row a sequence, "/" is the choice +, "[c]" is #c, and "%" is the pattern that always fails. A letter without a
-- line stops the whole match by an error.
local lpeg = require "lpeg"
lpeg.setmaxstack(1000000)

local FAILURE, MISSING, SUCCESS = 1, 3, 5

local function read_file(name)
  local file = assert(io.open(name, "rb"))
  local bytes = file:read("a")
  file:close()
  return bytes
end

-- The form of a text. A line is { letter, choice }, a choice its rows, a row its items, an item { kind, what it holds }.
local letter = lpeg.C(lpeg.R("AZ"))
local choice = lpeg.V("choice")

local function item_of(kind, pattern) return lpeg.Ct(lpeg.Cc(kind) * pattern) end

local form = lpeg.P {
  lpeg.Ct(lpeg.V("line") ^ 1) * -1,
  line = lpeg.Ct(letter * "=" * choice * "\n"),
  choice = lpeg.Ct(lpeg.V("row") * ("/" * lpeg.V("row")) ^ 0),
  row = lpeg.Ct(lpeg.V("item") ^ 0),
  item = item_of("letter", letter) + item_of("byte", "'" * lpeg.C(1) * "'") + item_of("never", "%")
    + item_of("round", "(" * choice * ")") + item_of("square", "[" * choice * "]"),
}

-- Calls a function with each letter of a choice, from left to right.
local function each_letter(rows, see)
  for _, row in ipairs(rows) do
    for _, item in ipairs(row) do
      if item[1] == "letter" then see(item[2]) end
      if item[1] == "round" or item[1] == "square" then each_letter(item[2], see) end
    end
  end
end

-- The letters of the lines, by first appearance.
local function letters_of(lines)
  local letters, seen = {}, {}
  local function see(name)
    if not seen[name] then letters[#letters + 1] = name end
    seen[name] = true
  end
  for _, line in ipairs(lines) do
    see(line[1])
    each_letter(line[2], see)
  end
  return letters
end

-- Stops the whole match. The pattern never succeeds, so LPeg's test for left recursion does not take it for one that matches nothing.
local missing = lpeg.Cmt(lpeg.P(true), function() error({ outcome = MISSING }) end) * lpeg.P(false)

local choice_pattern

local function item_pattern(item)
  local kind, held = item[1], item[2]
  if kind == "letter" then return lpeg.V(held) end
  if kind == "byte" then return lpeg.P(held) end
  if kind == "never" then return lpeg.P(false) end
  if kind == "square" then return #choice_pattern(held) end
  return choice_pattern(held)
end

local function row_pattern(row)
  local pattern = lpeg.P(true)
  for _, item in ipairs(row) do pattern = pattern * item_pattern(item) end
  return pattern
end

function choice_pattern(rows)
  local pattern = row_pattern(rows[1])
  for i = 2, #rows do pattern = pattern + row_pattern(rows[i]) end
  return pattern
end

-- The LPeg grammar of the letters that a letter can come to.
local function grammar_from(start, choices)
  local grammar, waiting = { start }, { start }
  while #waiting > 0 do
    local name = table.remove(waiting)
    local rows = choices[name]
    if not rows then
      grammar[name] = missing
    elseif not grammar[name] then
      grammar[name] = choice_pattern(rows)
      each_letter(rows, function(other) waiting[#waiting + 1] = other end)
    end
  end
  return grammar
end

local function outcome_at(pattern, entry, place)
  local matched, result = pcall(lpeg.match, pattern, entry, place + 1)
  if not matched then
    assert(type(result) == "table", result)
    return result.outcome
  end
  if not result then return FAILURE end
  return SUCCESS + result - 1
end

-- The outcomes of a letter, or that LPeg refuses its rules.
local function judge(name, choices, entry)
  local compiled, pattern = pcall(lpeg.P, grammar_from(name, choices))
  if not compiled then
    assert(pattern:find("may be left recursive", 1, true), pattern)
    return "left recursion"
  end
  local outcomes = {}
  for place = 0, #entry do outcomes[#outcomes + 1] = outcome_at(pattern, entry, place) end
  return table.concat(outcomes, " ")
end

local lines = assert(form:match(read_file(arg[1])), "the text is not of the form")
local entry, choices = read_file(arg[2]), {}
for _, line in ipairs(lines) do choices[line[1]] = line[2] end
for _, name in ipairs(letters_of(lines)) do print(name, judge(name, choices, entry)) end
