-- Coroutines: yields from loops, calls, metamethods, iterators, tail calls and closing variables.
local gen = coroutine.wrap(function() for i = 1, 20 do coroutine.yield(i) end return "end" end)
for i = 1, 20 do assert(gen() == i) end
assert(gen() == "end")
local y = coroutine.yield
local mt = { __add = function(a, b) return y("add") end, __index = function(t, k) return y("index") end, __newindex = function() y("newindex") end,
  __lt = function() return y("lt") end, __le = function() return y("le") end, __eq = function() return y("eq") end,
  __concat = function() return y("concat") end, __len = function() return y("len") end, __call = function() return y("call") end,
  __unm = function() return y("unm") end, __close = function() y("close") end }
local function obj() return setmetatable({}, mt) end
local co = coroutine.wrap(function()
  local a, b = obj(), obj()
  local r = {}
  for _ = 1, 3 do
    r[1] = a + b
    r[2] = a.x
    a.x = 1
    a[1] = 2
    r[3] = a < b
    r[4] = a <= b
    r[5] = a == b
    r[6] = a .. "s" .. b .. "t"
    r[7] = #a
    r[8] = a(1)
    r[9] = -a
    if a < b then r[10] = 1 else r[10] = 2 end
    if a > 1 then r[11] = 1 end
    while a <= b do break end
    for v in function(_, i) return y("iterate") end do r[12] = v break end
    do
      local c <close> = a
      local d <close> = b
    end
  end
  return "done"
end)
local seen, v, times = {}, nil, 0
repeat v = co(v == "concat" and "c" or times % 2 == 0) seen[v] = (seen[v] or 0) + 1 times = times + 1 until v == "done"
assert(seen.add == 3 and seen.close == 6 and seen.concat >= 3)
-- A return with two variables to close: the word is run again after each yield.
local closing = coroutine.wrap(function()
  local e <close> = obj()
  local f <close> = obj()
  return 1, 2, 3
end)
assert(closing() == "close" and closing() == "close" and select("#", closing()) == 3)
-- A tail call of a C function that yields: the word after it is run.
local tail = coroutine.wrap(function() return y("tail") end)
assert(tail() == "tail" and tail(7) == 7)
-- Errors caught inside, and a coroutine that never ends.
local guarded = coroutine.wrap(function() local ok = pcall(function() y(1) error("x") end) y(ok) return 3 end)
assert(guarded() == 1 and guarded() == false and guarded() == 3)
local half = coroutine.create(function() for i = 1, math.huge do y(i) end end)
for _ = 1, 10 do coroutine.resume(half) end
assert(coroutine.close(half))
local function producer() return coroutine.create(function() for i = 1, 5 do y(i) end end) end
local function filter(p) return coroutine.create(function() while true do local _, x = coroutine.resume(p) if not x then return end y(x * 2) end end) end
local f, out = filter(producer()), 0
while true do local _, x = coroutine.resume(f) if not x then break end out = out + x end
assert(out == 30)
