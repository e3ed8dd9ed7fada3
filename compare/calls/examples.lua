-- Runs what examples/track.lua and examples/flip.lua give, as a controller would: a star is followed, then the mount flips.
local folder = arg[0]:match("^(.*)/") .. "/../../examples/"
local moved = {ra = 0, dec = 0}
local mount = {nudge = function(axis, rate) moved[axis] = moved[axis] + rate end}
local track = loadfile(folder .. "track.lua")(mount)
local point = loadfile(folder .. "flip.lua")()
track({ra_rate = 3, dec_rate = 1}, 40)
assert(moved.ra == 120 and moved.dec == 40)
local c = {rate = 1, cone = 2, tilt = 3, flex = 4, skew = 5, lift = 6, bend = 7}
for hour = -3, 3 do assert(point(hour, moved.ra, moved.dec, c)) end
