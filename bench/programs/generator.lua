-- The upper bits of the 3,000,000th number of a linear congruential generator.
local seed = 1
for _ = 1, 3000000 do
    seed = seed * 6364136223846793005 + 1442695040888963407
end
print(seed >> 33)
