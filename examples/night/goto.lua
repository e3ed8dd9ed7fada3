-- Goes to a named star: looks it up, brings its place to tonight, keeps off the horizon, and slews in three speeds.
local mount, catalogue, log = ...

local YEAR = 2026.9
local HORIZON = 12

-- The star's place in the catalogue, or nothing.
local function find(name)
  for i = 1, #catalogue do
    local star = catalogue[i]
    if star.name == name then
      return star
    end
    if star.other == name then
      return star
    end
  end
  return nil
end

-- Precession and proper motion since the catalogue's year, the first terms of each.
local function tonight(star)
  local years = YEAR - star.year
  local ra = star.ra + star.motion_ra * years / 3600
  local dec = star.dec + star.motion_dec * years / 3600
  local t = years / 100
  local m = 3.07496 + 0.00186 * t
  local n = 1.33621 - 0.00057 * t
  local sine = star.sine_ra
  local cosine = star.cosine_ra
  local tangent = star.tangent_dec
  ra = ra + (m + n * sine * tangent) * years / 3600
  dec = dec + n * 15 * cosine * years / 3600
  while ra >= 24 do
    ra = ra - 24
  end
  while ra < 0 do
    ra = ra + 24
  end
  return ra, dec
end

-- How fast to go, by how far it is.
local function speed(left)
  if left > 5 then
    return 4
  elseif left > 0.5 then
    return 2
  end
  return 1
end

-- One axis until it is there.
local function axis(which, to)
  local at = mount.read(which)
  local turns = 0
  while true do
    local left = to - at
    if left < 0 then
      left = -left
    end
    if left < 0.001 then
      break
    end
    if to > at then
      mount.move(which, speed(left))
    else
      mount.move(which, -speed(left))
    end
    at = mount.read(which)
    turns = turns + 1
  end
  mount.move(which, 0)
  return turns
end

local function go(name)
  local star = find(name)
  if not star then
    log("no such star", name)
    return false
  end
  local ra, dec = tonight(star)
  if mount.height(ra, dec) < HORIZON then
    log("too low", name)
    return false
  end
  local a = axis("ra", ra)
  local b = axis("dec", dec)
  log("there", name, a, b)
  return true
end

return go
