-- Where to point next. East of the meridian that is a sum or two. Past it the mount flips, and the corrections of the other
-- side of the pier are worked out term by term, once a night, with no call and no way back in between.
local function point(hour, ra, dec, c)
  if hour < 0 then
    return ra + c.rate, dec
  end
  local h2 = hour * hour
  local h3 = h2 * hour
  local d2 = dec * dec
  local cone = c.cone * (1 - d2 / 2)
  local tilt = c.tilt * (hour - h3 / 6) * dec
  local flex = c.flex * (1 - h2 / 2) * (1 - d2 / 2)
  local skew = c.skew * (dec - d2 * dec / 6)
  local lift = c.lift * h2 + c.bend * d2
  ra = 24 - ra - cone - tilt - skew
  dec = 180 - dec - flex - lift
  return ra, dec
end

return point
