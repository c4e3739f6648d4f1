-- Calls each function of multihash_ffi.h, which does what that of another header does.
--
--   luajit ffi.lua HEADER LIBRARY
local ffi = require 'ffi'
local header, library = ...
ffi.cdef(assert(io.open(header)):read('*a'))
local C = ffi.load(library)
local result, text, out = ffi.new('uint64_t[7]'), ffi.new('char[554]'), ffi.new('uint8_t[300]')
local BINARY, SCALE, PADDED = '\18\3abc', '\18\0\0\0\0\0\0\0\3abc', '\128\0'
local LARGE = 0x8000000000000000ULL -- a code that is none

-- The status, and the first numbers of the result.
local function check(wanted, status)
  local found = {status}
  for at = 0, #wanted - 2 do found[#found + 1] = tonumber(result[at]) end
  found, wanted = table.concat(found, ' '), table.concat(wanted, ' ')
  if found ~= wanted then error(found .. ', and not ' .. wanted, 2) end
end
local function same(found, wanted)
  if found ~= wanted then error(('%s, and not %s'):format(found, wanted), 2) end
end

check({0, 0, 18, 2, 3, 5}, C.multihash_ffi_from_bytes(BINARY, 5, result))
check({4, 1}, C.multihash_ffi_from_bytes(BINARY .. 'd', 6, result))
check({0, 0, 18, 2, 3, 5}, C.multihash_ffi_from_prefix(BINARY, 2, 5, result))
check({0, 0, 18, 2, 3, 5}, C.multihash_ffi_read(BINARY .. 'd', 6, result))
check({0, 0, 18, 2, 3, 5}, C.multihash_ffi_read_limit(BINARY, 5, 3, result))
check({4, 3, 0, 0, 0, 2}, C.multihash_ffi_read_limit(BINARY, 5, 2, result))
check({0, 0, 18, 9, 3, 12}, C.multihash_ffi_scale_decode(SCALE, 12, result))
local items = ffi.new('struct { uint64_t code; size_t digest_offset, digest_length; }[2]')
check({3, 0, 1, 5}, C.multihash_ffi_read_many(BINARY .. PADDED, 7, items, 2, result))
check({4, 383, 1, 5}, C.multihash_ffi_read_many(BINARY .. '\18\255\2', 8, items, 2, result))
same(tonumber(items[0].code + items[0].digest_offset + items[0].digest_length), 18 + 2 + 3)
check({0, 18, 3, 2}, C.multihash_ffi_read_head(BINARY, 2, result))
check({0, 300, 2}, C.multihash_ffi_read_varint('\172\2', 2, result))
check({0, 300, 2}, C.multihash_ffi_write_varint(300, out, 2, result) == 0 and C.multihash_ffi_read_varint(out, 2, result))
check({7}, C.multihash_ffi_write_varint(300, out, 1, result))
check({2}, C.multihash_ffi_write_varint(LARGE, out, 9, result))
check({0, 0, 5}, C.multihash_ffi_encoded_length(18, 3, result))
check({0, 0, 5}, C.multihash_ffi_encode(18, 'abc', 3, out, 300, result))
same(ffi.string(out, 5), BINARY)
check({0, 0, 12}, C.multihash_ffi_scale_encode(18, 'abc', 3, out, 300, result))
same(ffi.string(out, 12), SCALE)
check({7, 0, 12}, C.multihash_ffi_scale_encode(18, 'abc', 3, out, 11, result))

for status = 0, 8 do same(C.multihash_is_incomplete(status), (status == 1 or status == 6) and 1 or 0) end
same(ffi.string(C.multihash_status_text(4)), 'the digest or the input is too long')
same(C.multihash_compare(18, 'abc', 3, 18, 'abd', 3), -1)
same(C.multihash_version(), 10000)
same(ffi.string(text, C.multihash_ffi_message(text, 128, BINARY, 4, 255)), 'the input ends inside the digest (2 of 3 bytes)')
same(ffi.string(text, C.multihash_ffi_scale_message(text, 128, SCALE, 11)), 'the input ends inside the digest (2 of 3 bytes)')
C.multihash_ffi_encode_message(text, 128, C.multihash_ffi_encode(18, out, 300, out, 0, result), result, 18, 0)
same(ffi.string(text), 'the digest has 300 bytes, and the limit is 255')
C.multihash_ffi_encode_message(text, 128, C.multihash_ffi_encode(18, out, 3, out, 4, result), result, 18, 4)
same(ffi.string(text), 'the buffer has 4 bytes, and 5 are needed')
C.multihash_ffi_encode_message(text, 128, C.multihash_ffi_encode(LARGE, out, 3, out, 4, result), result, LARGE, 4)
same(ffi.string(text), 'the code 9223372036854775808 is 2^63 or more')
same(ffi.string(C.multihash_ffi_name(18)), 'sha2-256')
same(C.multihash_ffi_name(1), nil)
same(C.multihash_ffi_code('sha2-256'), 18ULL)
same(C.multihash_ffi_code('none'), -1ULL)

local CID, TEXT = '\1\85' .. BINARY, 'f01551203616263'
check({0, 1, 85, 18, 2, 4, 3, 7}, C.multihash_ffi_cid_from_bytes(CID, 7, result))
check({4}, C.multihash_ffi_cid_from_bytes(CID .. 'd', 8, result))
check({0, 1, 85, 18, 2, 4, 3, 7}, C.multihash_ffi_cid_read(CID .. 'd', 8, result))
check({0, 0, 7}, C.multihash_ffi_cid_encode(1, 85, 18, 'abc', 3, out, 7, result))
same(ffi.string(out, 7), CID)
check({7, 0, 7}, C.multihash_ffi_cid_encode(1, 85, 18, 'abc', 3, out, 6, result))
out[0] = 0
check({0, 1, 85, 18, 2, 4, 3, 7}, C.multihash_ffi_cid_parse(TEXT, #TEXT, out, 7, result))
same(ffi.string(out, 7), CID)
check({7, 0, 0, 0, 0, 0, 0, 7}, C.multihash_ffi_cid_parse(TEXT, #TEXT, out, 6, result))
check({0, 0, #TEXT}, C.multihash_ffi_cid_text(CID, 7, ('f'):byte(), text, #TEXT + 1, result))
same(ffi.string(text), TEXT)
check({7, 0, #TEXT + 1}, C.multihash_ffi_cid_text(CID, 7, ('f'):byte(), text, #TEXT, result))
same(ffi.string(C.multihash_cid_status_text(21)), 'the version is unknown')
same(ffi.string(C.multihash_cid_status_text(C.multihash_ffi_cid_parse('', 0, out, 300, result))),
  'the input is empty, or ends before or inside a varint')
