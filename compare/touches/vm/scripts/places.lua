-- Words whose listed places the other scripts do not all show: numbers and metamethods for each arithmetic word,
-- loops that run and loops that are skipped, over integers and floats.
local object = setmetatable({}, {
  __add = function() return 1 end, __sub = function() return 2 end, __mul = function() return 3 end, __mod = function() return 4 end,
  __pow = function() return 5 end, __div = function() return 6 end, __idiv = function() return 7 end, __band = function() return 8 end,
  __bor = function() return 9 end, __bxor = function() return 10 end, __shl = function() return 11 end, __shr = function() return 12 end,
})

local function constants(x)
  local a, b, c, d = x + 1000.5, x - 1000.5, x * 1000.5, x % 1000.5
  local e, f, g = x ^ 2, x / 2, x // 3
  local h, i, j = x & 7, x | 7, x ~ 7
  local k, l, m = x + 1, x >> 1, 1 << x
  return a, b, c, d, e, f, g, h, i, j, k, l, m
end

local function registers(x, y)
  local a, b, c, d = x + y, x - y, x * y, x % y
  local e, f, g = x ^ y, x / y, x // y
  local h, i, j, k, l = x & y, x | y, x ~ y, x << y, x >> y
  return a, b, c, d, e, f, g, h, i, j, k, l
end

for _, x in ipairs { 5, object, 6.0, 7 } do
  constants(x)
  registers(x, 3)
  registers(4, x)
end

local function count(first, last, step)
  local n = 0
  for i = first, last, step do n = n + i end
  return n
end
assert(count(1, 3, 1) == 6 and count(3, 1, 1) == 0 and count(3, 1, -1) == 6)
assert(count(1.5, 3, 1) == 4.0 and count(3.5, 1, 1) == 0 and count(1, 2.5, 0.5) == 7.0)

local function choose(x, y)
  local a = x and y
  local b = x or y
  return a, b
end
choose(true, 1)
choose(false, 2)
choose(nil, 3)

for k, v in pairs { 1, 2, x = 3 } do assert(k and v) end
for w in string.gmatch("a b c", "%a") do assert(w) end
do
  local closed = 0
  local closer = setmetatable({}, { __close = function() closed = closed + 1 end })
  local t <close> = closer
  for k in next, { 1, 2 }, nil, closer do assert(k) end
  assert(closed == 1)
end
