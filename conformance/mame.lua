-- Waits until opcodes.asm has shown all its lines on MAME's board, and writes tile RAM, 1,024 bytes, into the file that $CONFORMANCE_OUT names.
--
--     CONFORMANCE_OUT=tiles mame pacman -rompath ROMS -autoboot_script conformance/mame.lua -autoboot_delay 0 -video none -sound none -nothrottle
--
-- ROMS/pacman has opcodes.roms as the files of MAME's set; conformance/mame.py lays them, and calls this.
local bus = manager.machine.devices[":maincpu"].spaces["program"]
local first, row, rows, most = 0x4042, 32, 28, 6000
local frames = 0

-- whether a row shows DONE
local function is_done(at)
    for place, sign in ipairs({ 0x44, 0x4f, 0x4e, 0x45 }) do
        if bus:read_u8(at + place - 1) ~= sign then return false end
    end
    return true
end

emu.register_frame_done(function()
    frames = frames + 1
    local ended = frames >= most
    for line = 0, rows - 1 do
        ended = ended or is_done(first + row * line)
    end
    if not ended then return end
    local file = assert(io.open(os.getenv("CONFORMANCE_OUT"), "wb"))
    for at = 0x4000, 0x43ff do
        file:write(string.char(bus:read_u8(at)))
    end
    file:close()
    manager.machine:exit()
end)
