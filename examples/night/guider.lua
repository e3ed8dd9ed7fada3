-- Guides: measures where the star is in the camera's window, and nudges the mount back to where it should be.
local camera, mount, log = ...

local WIDTH, HEIGHT = 16, 16

-- The star's middle, by the light of each pixel. The inner loop goes back at every pixel.
local function middle(window)
  local sum, across, down = 0, 0, 0
  for y = 1, HEIGHT do
    local row = window[y]
    for x = 1, WIDTH do
      local light = row[x]
      if light > window.floor then
        light = light - window.floor
        sum = sum + light
        across = across + light * x
        down = down + light * y
      end
    end
  end
  if sum == 0 then
    return nil
  end
  return across / sum, down / sum
end

-- The background by the four corners, written out: no loop, no call.
local function floor_of(window)
  local a, b = window[1], window[HEIGHT]
  local c, d = window[2], window[HEIGHT - 1]
  local sum = a[1] + a[2] + a[WIDTH - 1] + a[WIDTH]
  sum = sum + b[1] + b[2] + b[WIDTH - 1] + b[WIDTH]
  sum = sum + c[1] + c[2] + c[WIDTH - 1] + c[WIDTH]
  sum = sum + d[1] + d[2] + d[WIDTH - 1] + d[WIDTH]
  local mean = sum / 16
  local spread = (a[1] - mean) ^ 2 + (b[1] - mean) ^ 2 + (c[1] - mean) ^ 2 + (d[1] - mean) ^ 2
  return mean + spread / 4
end

-- From pixels to seconds of arc on both axes: the camera stands at an angle.
local function turned(x, y, c)
  local ra = (x * c.cosine + y * c.sine) * c.scale
  local dec = (y * c.cosine - x * c.sine) * c.scale
  if c.is_flipped then
    dec = -dec
  end
  return ra, dec
end

-- No nudge below the seeing, none above what the mount can take.
local function bounded(nudge, c)
  if nudge > c.most then
    return c.most
  elseif nudge < -c.most then
    return -c.most
  elseif nudge < c.least and nudge > -c.least then
    return 0
  end
  return nudge
end

local function guide(c, turns)
  local lost = 0
  local home_x, home_y
  for turn = 1, turns do
    local window = camera.window(WIDTH, HEIGHT)
    window.floor = floor_of(window)
    local x, y = middle(window)
    if not x then
      lost = lost + 1
      if lost > c.patience then
        log("lost", turn)
        return false
      end
    elseif not home_x then
      home_x, home_y = x, y
    else
      lost = 0
      local ra, dec = turned(x - home_x, y - home_y, c)
      mount.nudge("ra", bounded(-ra * c.gain, c))
      mount.nudge("dec", bounded(-dec * c.gain, c))
    end
  end
  return true
end

return guide
