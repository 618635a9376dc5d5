-- What nginx can't count by itself: wrong passwords of an address, and bytes of refused requests of a caller. office/server calls this in
-- three phases of a message: before the password is looked at, behind that, and behind the answer.

local PASSWORDS, MINUTE, HOUR = 120, 60, 3600
-- Bytes of refused requests in an hour, of a translator and of a manager.
local BYTES = { ["0"] = 2000000, ["1"] = 100000000 }
-- What a record has in the office's file beside its content.
local ROW = 150
-- Where a request has one of these it may be recorded for good; 499: its client went away first.
local COSTS = { [403] = true, [404] = true, [409] = true, [422] = true, [499] = true, [504] = true }

-- (two, so that no number of addresses drives out what callers were refused)
local sign_ins, refused, var = ngx.shared.office_sign_ins, ngx.shared.office_refused, ngx.var

-- Of an IPv6 address the first half counts.
local function address()
  local bytes = var.binary_remote_addr
  return #bytes == 16 and bytes:sub(1, 8) or bytes
end

local function wrong_passwords()
  return "wrong " .. math.floor(ngx.time() / MINUTE) .. " " .. address()
end

-- A password that was given: not itself, but what it is known again by.
local function password()
  return "right " .. ngx.sha1_bin(var.project .. "\n" .. address() .. "\n" .. (var.http_authorization or ""))
end

-- What a request costs where it is refused.
local function cost()
  return tonumber(var.content_length) + ROW
end

local phases = {}

function phases.rewrite()
  if var.realm ~= "off" and (sign_ins:get(wrong_passwords()) or 0) >= PASSWORDS and not sign_ins:get(password()) then
    return ngx.exec("@guesses")
  end
end

function phases.access()
  if var.login == "" then
    return ngx.exit(401)
  end
  sign_ins:set(password(), true, HOUR)
  if var.charges == "1" then
    local hour = math.floor(ngx.time() / HOUR) .. " " .. var.project .. " " .. var.caller
    var.charged = hour
    if refused:incr(hour, cost(), 0, 2 * HOUR) > BYTES[var.manages] then
      return ngx.exec("@refused")
    end
  end
end

function phases.log()
  if ngx.status == 401 then
    sign_ins:incr(wrong_passwords(), 1, 0, 2 * MINUTE)
  elseif (var.charged or "") ~= "" and not COSTS[ngx.status] then
    refused:incr(var.charged, -cost())
  end
end

phases[ngx.get_phase()]()
