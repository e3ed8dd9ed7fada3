-- The meridian flip. When a star has crossed the meridian, the mount turns over to the other side of its pier.
local mount, log = ...

-- Where the star is on the other side: every correction of the mount's model in turn, with no call and no way back in between.
local function flipped(hour, ra, dec, c)
  if hour < 0 then
    return ra, dec
  end
  local h2 = hour * hour
  local h3 = h2 * hour
  local d2 = dec * dec
  local d3 = d2 * dec
  local cone = c.cone * (1 - d2 / 2 + d2 * d2 / 24)
  local tilt = c.tilt * (hour - h3 / 6) * dec
  local flex = c.flex * (1 - h2 / 2) * (1 - d2 / 2)
  local skew = c.skew * (dec - d3 / 6)
  local lift = c.lift * h2 + c.bend * d2
  local sag = c.sag * (1 - h2 / 2) * (dec - d3 / 6)
  local twist = c.twist * (hour - h3 / 6) * (1 - d2 / 2)
  ra = 24 - ra - cone - tilt - skew - twist
  dec = 180 - dec - flex - lift - sag
  if dec > 180 then
    dec = 360 - dec
  end
  return ra, dec
end

-- Goes there by steps, and waits at each until the motors are still.
local function slew(to_ra, to_dec, c)
  local ra, dec = mount.position()
  local tries, gone = 0, 0
  while not mount.is_still() do
    local step
    if tries < c.most_tries then
      local left = to_ra - ra
      local up = to_dec - dec
      step = left * c.rate + up * c.lean
      if step > c.most_step then
        step = c.most_step
      elseif step < -c.most_step then
        step = -c.most_step
      end
      mount.nudge("ra", step * c.gear)
      mount.nudge("dec", up * c.gear / 2)
      ra, dec = mount.position()
      gone = gone + step
    else
      mount.stop()
      log("slew", tries, gone)
    end
    tries = tries + 1
  end
  return tries
end

-- The whole flip: stop the guider, turn over, look where the star is, start again.
local function flip(star, c)
  mount.guide(false)
  local ra, dec = flipped(star.hour, star.ra, star.dec, c)
  local tries = slew(ra, dec, c)
  mount.guide(true)
  log("flip", star.name, tries)
  return ra, dec
end

return flip
