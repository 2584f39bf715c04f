-- Rules of so many levels, S = T "x" / T and so on: levels.lua DEPTH prints the nanoseconds for the entry `ab`.
local lpeg = require "lpeg"
local P, V = lpeg.P, lpeg.V
local depth = tonumber(arg[1])
local rules = { "s0", ["s" .. depth] = P "a" }
for i = 0, depth - 1 do
  local inner = V("s" .. i + 1)
  rules["s" .. i] = inner * "x" + inner
end
local entry = P(rules)
local start = os.clock()
assert(lpeg.match(entry, "ab") == 2)
print(string.format("%.0f", (os.clock() - start) * 1e9))
