# Decodes multihashes by the library for C: ruby show.rb, beside a libmultihash_c.so with the functions of multihash_ffi.h
require 'fiddle/import'

module Library
  extend Fiddle::Importer
  dlload './libmultihash_c.so' # or libmultihash_c.so.1, if it is installed
  extern 'unsigned int multihash_ffi_from_bytes(const char *, size_t, void *)'
  extern 'const char *multihash_ffi_name(unsigned long long)'
  extern 'int multihash_ffi_message(char *, size_t, const char *, size_t, size_t)'
end

["\x12\x03abc", "\x12\x03ab"].each do |bytes|
  numbers, text = "\0" * 40, "\0" * 128
  if Library.multihash_ffi_from_bytes(bytes, bytes.bytesize, numbers) == 0
    _, code, offset, length = numbers.unpack('Q5') # size, code, digest_offset, digest_length, consumed
    puts "#{Library.multihash_ffi_name(code)}, digest #{bytes.byteslice(offset, length)}"
  else
    Library.multihash_ffi_message(text, text.bytesize, bytes, bytes.bytesize, 255)
    puts text.unpack1('Z*')
  end
end
