-- Loops of every kind.
local sum = 0
for i = 1, 100 do sum = sum + i end
for i = 100, 1, -3 do sum = sum - i end
for i = 1, 0 do sum = sum + 1000 end
for x = 0.0, 1.0, 0.125 do sum = sum + x end
for _ = math.maxinteger - 2, math.maxinteger do sum = sum + 1 end
local n = 0
while n < 50 do
  n = n + 1
  if n % 7 == 0 then goto continue end
  if n == 45 then break end
  sum = sum + n
  ::continue::
end
repeat
  local done = n <= 3
  n = n - 1
until done
for k, v in pairs({ 1, 2, 3, a = 4, b = 5 }) do sum = sum + v end
for i, v in ipairs({ 5, 6, 7 }) do sum = sum + i * v end
for word in string.gmatch("one two three", "%a+") do sum = sum + #word end
for _ in pairs({}) do error("never") end
local function nested(a, b)
  local c = 0
  for i = 1, a do for j = i, b do for k = j, i, -1 do if k % 2 == 0 then c = c + 1 elseif k > 5 then break end end end end
  return c
end
assert(nested(8, 9) > 0)
local function range(n)
  return function(limit, i) if i < limit then return i + 1 end end, n, 0
end
for i in range(20) do sum = sum + i end
assert(sum ~= 0)
