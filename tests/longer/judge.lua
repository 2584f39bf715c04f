-- Judges a question with LPeg, a recognizer made elsewhere (Debian's lua-lpeg).
--
--   lua5.4 judge.lua CLASSES SHEET ENTRY VARIABLE PLACE
--
-- CLASSES are the ranges of bytes with their classes, as 48-57:1,9:4 and so on; a byte in none has class 0. SHEET and ENTRY are files;
-- the sheet is one that is accepted. With PLACE "-" the rules are only compiled. It prints one line:
--
--   success END | failure | missing VARIABLE PLACE | left recursion | accepted
--
-- A kind 4 rule A -> B(C,D) is the LPeg rule  A <- B C / !B D.  Where D always fails that is  B C,  and where C always succeeds  B / D,  which
-- try B once only. A variable without a rule stops the whole match by an error that says the variable and the place.
local lpeg = require "lpeg"
lpeg.setmaxstack(20000000)

local classes, sheet_file, entry_file, variable, place = table.unpack(arg)

local function read_file(name)
  local file = assert(io.open(name, "rb"))
  local bytes = file:read("a")
  file:close()
  return bytes
end

-- For each class, the set of its bytes as an LPeg pattern.
local function class_patterns(ranges)
  local patterns = {}
  for class = 1, 6 do patterns[class] = lpeg.P(false) end
  for range in ranges:gmatch("[^,]+") do
    local first, last, class = range:match("^(%d+)-(%d+):(%d)$")
    if not first then
      first, class = range:match("^(%d+):(%d)$")
      last = first
    end
    class = tonumber(class)
    patterns[class] = patterns[class] + lpeg.R(string.char(tonumber(first), tonumber(last)))
  end
  return patterns
end

-- The rules of a sheet: for each variable kind and three operands.
local function read_rules(sheet)
  local rules = {}
  for at = 27, #sheet, 26 do
    local fields = {}
    for field = 0, 4 do fields[field] = tonumber(sheet:sub(at + 5 * field, at + 5 * field + 4)) end
    rules[fields[0]] = { kind = fields[1], fields[2], fields[3], fields[4] }
  end
  return rules
end

-- Stops the whole match. The pattern never succeeds, so LPeg's test for left recursion does not take it for one that matches nothing.
local function missing(name)
  return lpeg.Cmt(lpeg.P(true), function(_, at) error({ variable = name, place = at - 1 }) end) * lpeg.P(false)
end

local function is_kind(rule, kind) return rule and rule.kind == kind end

local function pattern_of(rules, name, patterns)
  local rule = rules[name]
  if not rule then return missing(name) end
  if rule.kind == 0 then return lpeg.P(true) end
  if rule.kind == 1 then return lpeg.P(false) end
  if rule.kind == 2 then return lpeg.P(string.char(rule[1])) end
  if rule.kind == 3 then return patterns[rule[1]] end
  local b, c, d = lpeg.V("v" .. rule[1]), lpeg.V("v" .. rule[2]), lpeg.V("v" .. rule[3])
  if is_kind(rules[rule[3]], 1) then return b * c end
  if is_kind(rules[rule[2]], 0) then return b + d end
  return b * c + -b * d
end

-- The LPeg grammar of the rules that the variable can come to.
local function grammar_from(start, rules, patterns)
  local grammar, waiting = { "v" .. start }, { start }
  while #waiting > 0 do
    local name = table.remove(waiting)
    if not grammar["v" .. name] then
      local rule = rules[name]
      grammar["v" .. name] = pattern_of(rules, name, patterns)
      if rule and rule.kind == 4 then
        for operand = 1, 3 do waiting[#waiting + 1] = rule[operand] end
      end
    end
  end
  return grammar
end

local rules = read_rules(read_file(sheet_file))
local grammar = grammar_from(tonumber(variable), rules, class_patterns(classes))
local compiled, pattern = pcall(lpeg.P, grammar)
if not compiled then
  assert(pattern:find("may be left recursive", 1, true), pattern)
  print("left recursion")
  return
end
if place == "-" then
  print("accepted")
  return
end
local matched, result = pcall(lpeg.match, pattern, read_file(entry_file), tonumber(place) + 1)
if not matched then
  assert(type(result) == "table", result)
  print("missing", result.variable, result.place)
elseif result then
  print("success", result - 1)
else
  print("failure")
end
