-- Varargs: counts, selections, passing on, table packing.
local function count(...) return select("#", ...) end
assert(count() == 0 and count(nil, nil) == 2)
local function sum(...)
  local s = 0
  for i = 1, select("#", ...) do s = s + (select(i, ...)) end
  for _, v in ipairs({ ... }) do s = s + v end
  return s, ...
end
assert((sum(1, 2, 3)) == 12)
local function first(a, ...) return a end
local function rest(_, ...) return ... end
assert(first(rest(1, 2, 3)) == 2)
local function pass(f, ...) return f(...) end
assert(pass(math.max, 3, 9, 4) == 9)
assert(pass(count, pass(rest, 1, 2, 3)) == 2)
local t = table.pack(rest(0, "a", nil, "c"))
assert(t.n == 3 and t[3] == "c")
local function named(a, b, ...)
  local x, y, z = ...
  local p, q = (...), select(2, ...)
  return a, b, x, y, z, p, q
end
local r = { named(1, 2, 3, 4, 5) }
assert(r[3] == 3 and r[5] == 5 and #r == 7)
local function tail(n, ...) if n == 0 then return ... end return tail(n - 1, n, ...) end
assert(select("#", tail(50)) == 50)
assert(string.format("%d %s", rest(0, 7, "x")) == "7 x")
