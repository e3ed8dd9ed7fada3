-- Every metamethod, by registers, constants and immediates, and comparisons that jump either way.
local log = 0
local function op(name) return function(a, b) log = log + 1 return name end end
local mt = {}
for _, e in ipairs({ "add", "sub", "mul", "div", "mod", "pow", "unm", "idiv", "band", "bor", "bxor", "shl", "shr", "bnot", "concat" }) do
  mt["__" .. e] = op(e)
end
mt.__len = function() return 42 end
mt.__eq = function() return true end
mt.__lt = function(a, b) return log % 2 == 0 end
mt.__le = function() return true end
mt.__call = function(self, ...) return select("#", ...) end
mt.__index = function(_, k) return k end
mt.__newindex = function(t, k, v) rawset(t, k, v) end
mt.__close = function() log = log + 1 end
mt.__tostring = function() return "it" end
local a, b = setmetatable({}, mt), setmetatable({}, mt)
for _ = 1, 3 do
  assert(a + b == "add" and a + 1 == "add" and 1 + a == "add" and a + 1.5 == "add" and a + 1000000 == "add")
  assert(a - b == "sub" and a - 1 == "sub" and a - 2.5 == "sub" and a * b == "mul" and a * 3 == "mul" and a / b == "div" and a / 4 == "div")
  assert(a % b == "mod" and a % 5 == "mod" and a ^ b == "pow" and a ^ 2 == "pow" and a // b == "idiv" and a // 6 == "idiv")
  assert(a & b == "band" and a & 7 == "band" and a | b == "bor" and a | 8 == "bor" and a ~ b == "bxor" and a ~ 9 == "bxor")
  assert(a << b == "shl" and a << 1 == "shl" and 1 << a == "shl" and a >> b == "shr" and a >> 1 == "shr")
  assert(-a == "unm" and ~a == "bnot" and #a == 42 and a .. b == "concat" and "x" .. a .. "y" == "xconcat")
  assert(a == b and a <= b and a(1, 2, 3) == 3 and a.field == "field" and a[7] == 7 and a[b] == b)
  local less = a < b
  log = log + 1
  local more = a > b
  assert(less ~= more)
  if a < 5 then log = log + 1 end
  if a <= 5 then log = log + 1 end
  if a > 5 then log = log + 1 end
  if a >= 5 then log = log + 1 end
  a.x = 1
  a[1] = 2
  local key = "k" .. log
  a[key] = 3
  do local c <close> = a end
end
local x, y = 10, 3
assert(x + y == 13 and x - y == 7 and x * y == 30 and x / 4 == 2.5 and x % y == 1 and x // y == 3 and x ^ 2 == 100 and x & y == 2 and x | y == 11)
assert(x ~ y == 9 and x << y == 80 and x >> 1 == 5 and x << 2 == 40 and ~x == -11 and -x == -10 and not not x)
assert(x + 2.5 == 12.5 and x % 4 == 2 and x // 4 == 2 and x & 6 == 2 and x | 5 == 15 and x ~ 3 == 9)
assert(tostring(a) == "it" and log > 0)
local class = { greet = function(self) return self.name end }
class.__index = class
assert(setmetatable({ name = "n" }, class):greet() == "n")
