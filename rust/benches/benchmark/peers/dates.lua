-- Dates and ages in LPeg's own idiom: dates.lua ENTRIES CALLS prints the nanoseconds for all the entries, once.
local lpeg = require "lpeg"
local P, R, V = lpeg.P, lpeg.R, lpeg.V

local digit = R "09"
local number = digit * digit ^ -1
local month = P "January" + "February" + "March" + "April" + "May" + "June" + "July" + "August"
  + "September" + "October" + "November" + "December"
local unit = (P "year" + "month" + "week" + "day") * P "s" ^ -1
local term = number * " " * unit
local entry = number * " " * month * " " * digit * digit * digit * digit * ", aged " * term * (" " * term) ^ -1 * "."

local entries = {}
for line in io.lines(arg[1]) do
  entries[#entries + 1] = line
  assert(lpeg.match(entry, line) == #line + 1, line)
end
local match = lpeg.match
local start = os.clock()
for _ = 1, tonumber(arg[2]) do
  for i = 1, #entries do
    match(entry, entries[i])
  end
end
print(string.format("%.0f", (os.clock() - start) * 1e9 / tonumber(arg[2])))
