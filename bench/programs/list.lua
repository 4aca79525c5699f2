-- Builds a list of 1,000,000 nodes, sums it and lets it go; writes the sum.
local list = nil
for number = 1, 1000000 do
    list = {number = number, next = list}
end

local sum = 0
local node = list
while node do
    sum = sum + node.number
    node = node.next
end

while list do
    list = list.next
end
collectgarbage()
print(sum)
