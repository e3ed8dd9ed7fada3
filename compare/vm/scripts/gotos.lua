-- goto: forward, back, out of loops, to the first word, and out of blocks with captured locals.
local function spin(n)
  ::top::
  if n > 0 then n = n - 1 goto top end
  return n
end
assert(spin(100) == 0)
local function find(t, x)
  for i = 1, #t do
    for j = 1, #t[i] do
      if t[i][j] == x then goto found end
    end
  end
  do return false end
  ::found::
  return true
end
assert(find({ { 1, 2 }, { 3, 4 } }, 3) and not find({ { 1 } }, 9))
local fs = {}
do
  local i = 1
  ::again::
  local j = i
  fs[i] = function() j = j + 1 return j end
  i = i + 1
  if i <= 5 then goto again end
end
assert(fs[3]() == 4 and fs[3]() == 5 and fs[4]() == 5)
local state, steps = "a", 0
::dispatch::
steps = steps + 1
if state == "a" then state = "b" goto dispatch
elseif state == "b" then state = "c" goto dispatch
elseif state == "c" and steps < 20 then state = "a" goto dispatch end
assert(steps >= 20)
local a, b, c = nil, false, 0
local v = a or b or c
local w = (a and b) or (c and not b)
assert(v == 0 and w == true)
local flags = { a == nil, b ~= nil, not c, 1 < 2, c <= 0, c >= 1 }
assert(flags[1] and flags[2] and not flags[3] and flags[4] and flags[5] and not flags[6])
local function pick(x) return x == 1 and "one" or x == 2 and "two" or x == "three" and 3 or x == 2.5 and "half" or x end
assert(pick(1) == "one" and pick(2) == "two" and pick("three") == 3 and pick(2.5) == "half" and pick(nil) == nil)
