-- What the scripts for 5.4 do not show of 5.3: coroutines without variables that are closed, `__lt` in place of `__le`, a
-- yield from a `<=` among them, tail calls of C functions, and constants past the last that a word can name.
local yield, wrap = coroutine.yield, coroutine.wrap
local numbers = wrap(function() for i = 1, 20 do yield(i) end return "end" end)
for i = 1, 20 do assert(numbers() == i) end
assert(numbers() == "end")
local producer = wrap(function() for i = 1, 5 do yield(i) end end)
local filter = wrap(function() for x in producer do yield(x * 2) end end)
local sum = 0
for x in filter do sum = sum + x end
assert(sum == 30)

-- Without `__le` a `<=` asks for `__lt` with its operands exchanged, and negates.
local plain, yields = {}, {}
plain.__lt = function(a, b) return a.n < b.n end
yields.__lt = function(a, b) return yield(a.n < b.n) end
local function pair(events) return setmetatable({ n = 1 }, events), setmetatable({ n = 2 }, events) end
local a, b = pair(plain)
assert(a <= b and not (b <= a) and a >= a and (a <= b) == true)
local function compare(x, y)
  if x <= y then yield("yes") else yield("no") end
  return x <= y
end
for _, answer in ipairs { true, false } do
  local co = wrap(compare)
  assert(co(pair(yields)) == false and co(answer) == (answer and "no" or "yes"))
  co()
  assert(co(answer) == not answer)
end

-- A tail call of a C function comes back to the next word; of a Lua function it does not.
local function length(s) return select("#", s) end
local function twice(s) return length(s) end
assert(length("x") == 1 and twice("x") == 1)
local resumed = wrap(function(...) return yield(...) end)
assert(resumed(1, 2) == 1 and resumed(7) == 7)
local called = setmetatable({}, { __call = function(_, x) return x end })
assert((function() return called(5) end)() == 5 and pcall(error) == false)

-- LOADKX, which names constants from 262,144 on: so many different ones, and then one more in a call.
local parts = {}
for i = 1, 262200 do parts[i] = i .. ".5" end
local many = assert(load("local t = {" .. table.concat(parts, ",") .. "} local x = 0.25 t[#t + 1] = x return t, x"))
local t, x = many()
assert(#t == 262201 and t[262200] == 262200.5 and x == 0.25)

-- A loop that jumps out of blocks whose locals are captured: JMP closes them.
local kept = {}
for i = 1, 3 do
  local v = i
  kept[i] = function() v = v + 1 return v end
  if i == 2 then goto continue end
  kept[i]()
  ::continue::
end
assert(kept[1]() == 3 and kept[2]() == 3 and kept[3]() == 5)
do
  local i = 0
  while true do
    local c = i
    kept[i] = function() return c end
    i = i + 1
    if i > 4 then break end
  end
  assert(kept[4]() == 4)
end

-- A yield from the arithmetic that the scripts for 5.4, where other words call the metamethods, do not interrupt.
local events = {}
for event in ("sub mul mod pow div idiv bor bxor"):gmatch("%l+") do events["__" .. event] = function() return yield(event) end end
local o = setmetatable({}, events)
local arithmetic = wrap(function() return o - 1, o * 1, o % 1, o ^ 1, o / 1, o // 1, o | 1, o ~ 1 end)
for event in ("sub mul mod pow div idiv bor bxor"):gmatch("%l+") do assert(arithmetic(event) == event) end
assert(select("#", arithmetic(1)) == 8)
