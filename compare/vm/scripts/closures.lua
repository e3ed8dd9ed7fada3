-- Closures, upvalues that are shared and closed, tail calls, recursion.
local function counter()
  local n = 0
  return function() n = n + 1 return n end, function() return n end
end
local inc, get = counter()
for _ = 1, 10 do inc() end
assert(get() == 10)
local fs = {}
for i = 1, 5 do
  local j = i * 2
  fs[#fs + 1] = function(d) j = j + (d or 0) return i + j end
end
local total = 0
for _, f in ipairs(fs) do total = total + f(1) + f() end
assert(total == 2 * 15 + 2 * 30 + 10)
local function loop(n, acc) if n == 0 then return acc end return loop(n - 1, acc + n) end
assert(loop(1000, 0) == 500500)
local function fib(n) return n < 2 and n or fib(n - 1) + fib(n - 2) end
assert(fib(16) == 987)
local function even(n) if n == 0 then return true end return odd(n - 1) end
function odd(n) if n == 0 then return false end return even(n - 1) end
assert(even(100) and not even(7))
local function compose(f, g) return function(...) return f(g(...)) end end
assert(compose(function(x) return x * 2 end, function(a, b) return a + b end)(3, 4) == 14)
local Y = function(f) return (function(x) return x(x) end)(function(x) return f(function(...) return x(x)(...) end) end) end
assert(Y(function(self) return function(n) return n == 0 and 1 or n * self(n - 1) end end)(10) == 3628800)
while true do
  local x = 3
  local g = function() return x end
  if g() == 3 then break end
end
