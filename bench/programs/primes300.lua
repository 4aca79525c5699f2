-- How many primes there are below 300,000, by trial division.
local function is_prime(number)
    local divisor = 2
    while divisor * divisor <= number do
        if number % divisor == 0 then
            return 0
        end
        divisor = divisor + 1
    end
    return 1
end

local primes = 0
for number = 2, 299999 do
    primes = primes + is_prime(number)
end
print(primes)
