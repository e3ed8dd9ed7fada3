-- Keeps the dome's slit before the telescope. The telescope does not stand in the middle of the dome, so the way to the slit is a ray.
local dome, mount, weather, log = ...

local R, NORTH, EAST, UP, ARM = 2.5, 0.12, -0.05, 0.31, 0.42

-- Where the ray from the telescope meets the dome.
local function slit(azimuth, height, side, trig)
  local sa, ca = trig.sin(azimuth), trig.cos(azimuth)
  local sh, ch = trig.sin(height), trig.cos(height)
  local x, y, z = NORTH, EAST, UP
  if side == "east" then
    x = x + ARM * sh * ca
    y = y + ARM * sh * sa
    z = z + ARM * ch
  else
    x = x - ARM * sh * ca
    y = y - ARM * sh * sa
    z = z - ARM * ch
  end
  local dx, dy, dz = ch * ca, ch * sa, sh
  local b = x * dx + y * dy + z * dz
  local c = x * x + y * y + z * z - R * R
  local far = (b * b - c) ^ 0.5 - b
  local px, py, pz = x + far * dx, y + far * dy, z + far * dz
  local way = trig.atan(py, px)
  if way < 0 then
    way = way + 360
  end
  return way, trig.atan(pz, (px * px + py * py) ^ 0.5)
end

-- The shorter way round.
local function turn(from, to)
  local d = to - from
  if d > 180 then
    d = d - 360
  elseif d < -180 then
    d = d + 360
  end
  return d
end

-- Whether to shut: any of these is enough. One line, many branches.
local function must_shut(w, limits)
  return w.rain > 0 or w.wind > limits.wind or w.damp > limits.damp or w.cloud > limits.cloud
    or w.inside - w.dew < limits.dew or w.age > limits.age
end

local function shut(why)
  log("shut", why)
  dome.turn(0)
  while not dome.is_shut() do
    dome.shut()
  end
end

local function follow(limits, trig)
  while mount.is_tracking() do
    local w = weather.read()
    if must_shut(w, limits) then
      shut("weather")
      return false
    end
    local azimuth, height, side = mount.horizontal()
    local way, up = slit(azimuth, height, side, trig)
    local d = turn(dome.azimuth(), way)
    if d > limits.slack or d < -limits.slack then
      dome.turn(d)
    end
    if up > limits.top then
      dome.flap(true)
    elseif up < limits.bottom then
      dome.flap(false)
    end
  end
  return true
end

return follow
