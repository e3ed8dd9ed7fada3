-- Focuses: takes pictures at seven places, lays a curve through the widths of a star, and goes to its lowest point.
local camera, focuser, log = ...

-- The width of a star in a picture: how far its light reaches, by the light of each row.
local function width(picture)
  local sum, moment = 0, 0
  for y = 1, #picture do
    local row = picture[y]
    for x = 1, #row do
      local light = row[x] - picture.floor
      if light > 0 then
        local dx, dy = x - picture.x, y - picture.y
        sum = sum + light
        moment = moment + light * (dx * dx + dy * dy)
      end
    end
  end
  if sum == 0 then
    return 99
  end
  return (moment / sum) ^ 0.5
end

-- The lowest point of the parabola through seven places at equal distances, by least squares, written out.
local function lowest(w, middle, step)
  local s0 = w[1] + w[2] + w[3] + w[4] + w[5] + w[6] + w[7]
  local s1 = -3 * w[1] - 2 * w[2] - w[3] + w[5] + 2 * w[6] + 3 * w[7]
  local s2 = 9 * w[1] + 4 * w[2] + w[3] + w[5] + 4 * w[6] + 9 * w[7]
  local a = (7 * s2 - 28 * s0) / 588
  local b = s1 / 28
  if a <= 0 then
    return nil
  end
  local at = -b / (2 * a)
  if at > 3 or at < -3 then
    return nil
  end
  return middle + at * step
end

-- Always from below, so that the gears' play is on one side.
local function move(to, play)
  if to < focuser.position() then
    focuser.go(to - play)
  end
  focuser.go(to)
  while focuser.is_moving() do
    camera.wait(1)
  end
end

-- Warm tubes grow: where to go since the last time.
local function drift(c)
  local t = focuser.temperature()
  return c.last + (t - c.last_temperature) * c.per_degree
end

local function focus(c)
  local middle = drift(c)
  local w = {}
  for round = 1, c.rounds do
    for i = 1, 7 do
      move(middle + (i - 4) * c.step, c.play)
      w[i] = width(camera.take(c.seconds))
    end
    local at = lowest(w, middle, c.step)
    if at then
      move(at, c.play)
      log("focus", at, round)
      c.last, c.last_temperature = at, focuser.temperature()
      return at
    end
    if w[1] < w[7] then
      middle = middle - 3 * c.step
    else
      middle = middle + 3 * c.step
    end
  end
  log("no focus")
  return nil
end

return focus
