-- Follows a star. Each turn of the loop goes back after a few words, so the motors are served all the time.
local mount = ...

local function track(star, turns)
  for _ = 1, turns do
    mount.nudge("ra", star.ra_rate)
    mount.nudge("dec", star.dec_rate)
  end
end

return track
