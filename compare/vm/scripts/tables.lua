-- Large tables: constructors of every length around the batch of 50, holes, records, extra arguments, sorting.
local function list(n)
  local parts = {}
  for i = 1, n do parts[i] = tostring(i) end
  return table.concat(parts, ",")
end
for _, n in ipairs({ 0, 1, 49, 50, 51, 100, 101, 255, 256, 257, 1000, 13000 }) do
  local t = load("return {" .. list(n) .. "}")()
  assert(#t == n)
end
local tail = load("local function f() return 1, 2, 3 end return {" .. list(300) .. ", f()}")()
assert(#tail == 303)
local fields = {}
for i = 1, 300 do fields[i] = "k" .. i .. "=" .. i end
local r = load("return {" .. table.concat(fields, ",") .. "}")()
assert(r.k300 == 300)
-- Over 131,072 constants: LOADKX. The function is over the limit of words, so only its steps are checked.
local many = {}
for i = 1, 140000 do many[i] = i .. ".5" end
local big = load("return {" .. table.concat(many, ",") .. "}")()
assert(big[140000] == 140000.5)
local t = {}
for i = 1, 500 do t[i] = (i * 7919) % 1009 end
table.sort(t)
for i = 2, #t do assert(t[i - 1] <= t[i]) end
table.sort(t, function(a, b) return a > b end)
local copy = table.move(t, 1, #t, 1, {})
assert(#copy == 500 and table.unpack(copy, 1, 1) == t[1])
local grid = {}
for i = 1, 20 do grid[i] = {} for j = 1, 20 do grid[i][j] = (i * j) % 3 == 0 and "x" or nil end end
local n = 0
for _, row in ipairs(grid) do for _ in pairs(row) do n = n + 1 end end
assert(n > 0)
local names = { "a", "b", x = 1, ["y z"] = 2, [10] = 3, [true] = 4, [1.5] = 5 }
names.x, names.w = names.w, names.x
assert(names.w == 1 and names.x == nil)
