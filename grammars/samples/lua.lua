-- A stack of values, and what can be done with it
local Stack <const> = {}
Stack.__index = Stack

--[[ Makes a stack
     of these values. ]]
function Stack.new(...)
    local self = setmetatable({ size = 0, [1] = nil; }, Stack)
    for _, value in ipairs { ... } do
        self:push(value)
    end
    return self
end

function Stack.inner.part:push(value, ...)
    self.size, self[self.size + 1] = self.size + 1, value
    if value == nil then
        error "no value"
    elseif type(value) ~= 'function' and not (#value >= 0x1p4) then
        self.last = -2 ^ -value .. [[ long ]] .. [==[ ]=] ]==]
    else
        goto done
    end
    ::done::
end

local function bits(a, b)
    return a & 0xFF | b << 8 ~ ~a >> 1 // 2 % 3;
end

local count
(print or error)("\65\x41\u{48}\z
    end", .5, 3., 1e-2)
repeat
    local next = function(x, ...) return x, ... end
    count = (count or 0) + next(1)
until count < 10 or count > 20;
(Stack).total = count * 2 - 1 / 3
for i = 10, 1, -1 do
    while true do
        if i <= 2 then break end
        do i = i - 1; end
    end
end
local low, high <const> = false, [=[ a ]] b ]=]
low, (Stack).inner().rows[1] = high, 2;
(print)(low)(high)
#! what a script's first line may be
local longest --[===[ a comment ]==] of level 3 ]===] = [===[ a ]] b ]=] c ]==] d ]===]
return Stack, bits(1, 2)
