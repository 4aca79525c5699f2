-- Multiplies two matrices of 100 x 100 integers; writes the sum of the product's elements, each with its place's weight.
local left, right, product = {}, {}, {}

for row = 0, 99 do
    left[row], right[row], product[row] = {}, {}, {}
    for column = 0, 99 do
        left[row][column] = (row * 3 + column * 7) % 101 - 50
        right[row][column] = (row * 5 + column * 2) % 97 - 48
    end
end

for row = 0, 99 do
    for column = 0, 99 do
        local sum = 0
        for i = 0, 99 do
            sum = sum + left[row][i] * right[i][column]
        end
        product[row][column] = sum
    end
end

local sum = 0
for row = 0, 99 do
    for column = 0, 99 do
        sum = sum + product[row][column] * (row * 100 + column + 1)
    end
end
print(sum)
