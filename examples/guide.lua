-- Corrects a mount's course by what the guide camera saw: x and y, how far the star has moved. Four short functions that call
-- one another, without a loop.
local function limit(rate, most)
  if rate > most then
    return most
  elseif rate < -most then
    return -most
  end
  return rate
end

local function axis(offset, gain)
  local push = limit(offset * gain, 3)
  local drift = limit(offset / 8, 1)
  local rate = limit(push + drift, 2)
  return rate - drift * gain
end

local function frame(x, y)
  local ra = axis(x, 0.5)
  local dec = axis(y, 0.25)
  local skew = axis(x - y, 0.125)
  return x - ra - skew, y - dec + skew
end

local function guide(x, y)
  x, y = frame(frame(x, y))
  x, y = frame(frame(x, y))
  return x, y
end

local x, y = guide(4, -2)
return limit(x + y, 9)
