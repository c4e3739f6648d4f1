"""Edits that are wrong: the function whose check has to reject each, the text, what is put in its place, and how the reason
starts. Most are of multihash.c and multihash.h; the last ones are of the definitions, and of how z3 is called."""

BAD = "return (multihash_varint){0};"
DECLARED = "    uint64_t value;\n    size_t length;\n"  # the first lines of multihash_read_varint
BEFORE = "multihash_varint multihash_read_varint(const uint8_t *bytes, size_t bytes_length)\n{\n"
VERSION = "uint32_t multihash_version(void)\n{\n    return MULTIHASH_VERSION_NUMBER;"
CODE = "    const uint64_t code = get_u64(bytes);\n"  # in multihash_scale_decode
PUT_CODE = "    put_u64(out, code);\n"  # in multihash_scale_encode
PUT_DIGEST = "    if (digest_length > 0) memcpy(out + 9, digest, digest_length);\n"
ROOM = "    if (length > out_length) return (multihash_encoded){.status = MULTIHASH_NO_ROOM, .length = length};\n"
ROOM_FOR_VARINT = ROOM + "    put_varint(out, value);\n"
MANY = "    while (count < out_length && consumed < bytes_length) {\n"
TURN = "        const uint8_t *next = bytes + consumed;\n        const size_t rest = bytes_length - consumed;\n"
LATE = "        if (n == 0) n = 1; else if (bytes[0] == 7) consumed = bytes_length; else\n"
HOSTED = "#include <string.h>\n#else"
INCOMPLETE = "/* Returns whether a status means that the input is truncated"  # in multihash.h
CONSUMED = "    *consumed = end;\n"
STATUS = "if (status != MULTIHASH_OK) return (multihash_varint)"
LIMITED = "start(bytes, bytes_length, limit)"
LIMIT = "decode_start(const uint8_t *bytes, size_t length, size_t limit)"
OLD_STYLE = "decode_start(bytes, length, limit) const uint8_t *bytes; size_t length, limit;"
SOLVER = 'self.solver = z3.SolverFor("QF_BV")'

# lines at the start of multihash_read_varint, and how the reason starts
INSERTED = (
    # what another compiler or machine, or an optimizer, may take otherwise
    (f"#ifndef _WIN32\n    {BAD}\n#endif", "unknown: the directive"),
    (f"if ((size_t)bytes % 8 == 5) {BAD}", "unknown: the cast Pointer"),
    (f"if (bytes_length > UINT32_MAX) {BAD}", "wrong result: "),
    ("int n = INT32_MAX;\n    n += bytes_length > 3;", "overflow: +"),
    ("size_t n = 0;\n    n = n++ + 1;", "order: n is written twice"),
    (f"size_t n = 0;\n    if (n++ > n) {BAD}", "order: n is written and used"),
    (f"if (sizeof(size_t) == 2) {BAD}", "unknown: UnaryExpr"),
    ('__asm__ volatile("");', "unknown: __asm__"),
    # what compilers, or their modes, read in different ways
    (f"#if __STDC_HOSTED__\n    {BAD}\n#endif", "unknown: the directive"),
    (f"if (__STDC_HOSTED__) {BAD}", "unknown: __STDC_HOSTED__"),
    (f"#if __STDC_HOSTED__\n#include <string.h>\n#else\n    {BAD}\n#endif", "unknown: the directive"),
    (f"// ??/\n    {BAD}", "unknown: the character"),
    (f"// \\ \n    {BAD}", "unknown: the character"),
    (f"const char c = -1;\n    if (c > 0) {BAD}", "unknown: a number as char"),
    (f"if (WINT_MAX < 70000) {BAD}", "unknown: WINT_MAX"),
    ("size_t n = 1, *restrict p = &n;\n    *p = n;", "unknown: restrict"),
    # memory that may not be there, and addresses
    ("uint8_t b[2] = {0};\n    b[2] = 1;", "unknown: the type uint8_t[2]"),
    ("uint8_t big[70000]; big[7] = 1;", "unknown: the type uint8_t[70000]"),
    ("*(uint8_t *)(size_t)1000000 = 7;", "unknown: the cast Integral"),
    (
        "const size_t *p;\n    { size_t n = 1; p = &n; }\n    if (*p == 2) return (multihash_varint){0};",
        "unknown: the address",
    ),
    # what does not end, or not soon
    ("if (bytes_length > 9) return multihash_read_varint(bytes, 9);", "unknown: a call"),
    ("size_t n = 0;\n    while (n < bytes_length) n++;", "no end: "),
    ("size_t n = 0;\n    do { if (n < 9) continue; } while (n < bytes_length);", "unknown: DoStmt"),
)

EDITS = (
    # ordinary mistakes
    ("get_varint", "if (bytes[i] < 0x80) {", "if (bytes[i] <= 0x80) {", "wrong result: "),
    ("get_varint", "    if (length == 0) return MULTIHASH_INSUFFICIENT;\n", "", "outside bytes"),
    ("get_varint", "return bytes[i] == 0 ?", "return bytes[i] == 1 ?", "wrong result: status"),
    ("get_varint", "uint64_t value = bytes[0] & 0x7f;", "int value = bytes[0] & 0x7f;", "overflow: "),
    ("get_varint", "|= (uint64_t)(bytes[i] & 0x7f) <<", "|= (bytes[i] & 0x7f) <<", "shift: "),
    ("get_varint", CONSUMED, "", "wrong result: consumed"),
    ("get_varint", "            *number = value;\n", "", "wrong result: value"),
    ("read_varint", STATUS, STATUS.replace("status != MULTIHASH_OK", "0"), "uninitialized: "),
    ("write_varint", "number >= 0x80;", "number > 0x80;", "wrong result: "),
    ("write_varint", ROOM_FOR_VARINT, ROOM_FOR_VARINT.replace("out_length)", "out_length + 1)"), "outside out"),
    ("read_head", "head.consumed += consumed;", "head.consumed = consumed;", "wrong result: consumed"),
    ("read_head", "if (length < 2 || bytes[0]", "if (length < 1 || bytes[0]", "outside bytes"),
    ("from_prefix", "prefix_length < whole_length ?", "prefix_length > whole_length ?", "outside prefix"),
    ("read_limit", "head.digest_length > limit ||", "head.digest_length >= limit ||", "wrong result: status"),
    ("read_limit", LIMITED, LIMITED.replace("limit", "(uint8_t)limit"), "wrong result: status"),
    ("scale_decode", "if (bytes_length < 8) return failed", "if (bytes_length < 7) return failed", "outside bytes"),
    # the same result, but a byte that may not be there is read
    ("scale_decode", "(bytes_length < 8) return f", "(bytes_length < 8 || bytes[8] > 255) return f", "outside bytes"),
    ("scale_decode", "> bytes_length - 9)", "> bytes_length - 8)", "wrong result: status"),
    ("scale_encode", PUT_DIGEST, PUT_DIGEST.replace("9", "8"), "wrong result: digest"),
    ("scale_encode", PUT_CODE, PUT_CODE + PUT_CODE, "unknown: writes out twice"),
    ("scale_encode", PUT_CODE, "    if (out_length > 300) out[300] = 0;\n" + PUT_CODE, "wrong result: the indices"),
    ("scale_encode", PUT_DIGEST, "", "wrong result: number of digest bytes"),
    ("encode", "if (digest_length > 0) memcpy(out, digest", "memcpy(out, digest", "outside digest"),
    ("compare", "    if (left_digest_length == 0) return 0;", "", "outside left_digest"),
    ("compare", "memcmp(left_digest, right_digest, ", "memcmp(right_digest, left_digest, ", "wrong result: "),
    ("status_text", 'return "the buffer is too', 'return "a buffer is too', "wrong result: "),
    ("is_incomplete", "status == MULTIHASH_INSUFFICIENT ||", "status == MULTIHASH_OVERFLOW ||", "wrong result: "),
    *(("read_varint", DECLARED, f"    {code}\n{DECLARED}", reason) for code, reason in INSERTED),
    # what another compiler or machine may take otherwise, in other places
    ("scale_decode", CODE, "    const uint64_t code = *(const uint64_t *)bytes;\n", "unknown: the cast BitCast"),
    ("scale_decode", CODE, "    uint64_t code;\n    memcpy(&code, bytes, 8);\n", "unknown: the cast BitCast"),
    ("scale_encode", HOSTED, "#define memcpy(a, b, c) (void)(c)\n" + HOSTED, "unknown: the directive"),
    ("get_varint", CONSUMED, "    // all\r" + CONSUMED, "unknown: the character"),
    ("read_varint", DECLARED, DECLARED + f'    "\\""; if (__GNUC__ > 4) {BAD} "";\n', "unknown: the character"),
    ("read", LIMIT, OLD_STYLE, "unknown: a call"),
    ("get_varint", "get_varint(const uint8_t *bytes,", "get_varint(const uint8_t bytes[static 9],", "unknown: [static"),
    ("read_varint", ".value = value, ", ".length = length++, .value = value, ", "unknown: Clang says"),
    ("scale_decode", "static inline uint64_t get_u64(", "uint64_t get_u64(", "unknown: get_u64"),
    ("is_incomplete", INCOMPLETE, "#define multihash_is_incomplete(x) 0\n" + INCOMPLETE, "unknown: the directive"),
    ("is_incomplete", INCOMPLETE, "#else\n" + INCOMPLETE, "unknown: the directive"),
    # memory that others may change, or that may not be there
    ("read_varint", BEFORE, "int debug;\n" + BEFORE, "unknown: VarDecl debug"),
    ("read_varint", BEFORE, f"struct s {{ size_t *p; }};\n{BEFORE}    struct s a;\n", "unknown: a member of s"),
    ("version", VERSION, VERSION.replace("{", "{\n    static uint32_t n; return n;"), "unknown: static"),
    ("version", VERSION, "static uint8_t a[2] = {8, 9};\n" + VERSION + " + (uint32_t)(size_t)a;", "unknown: VarDecl a"),
    ("version", VERSION, VERSION.replace("return", "extern char n[]; return (uint32_t)(size_t)n +"), "unknown: static"),
    ("scale_encode", PUT_CODE, "    extern uint8_t *other; digest = other;\n" + PUT_CODE, "unknown: static"),
    ("scale_encode", PUT_CODE, PUT_CODE + "    { uint8_t *digest = out; }\n", "unknown: digest, which is"),
    ("scale_decode", "= bytes[8];", "= *(volatile const uint8_t *)(bytes + 8);", "unknown: the type"),
    ("read_varint", STATUS, f"if ((size_t)&length % 32 == 0) {BAD}\n    {STATUS}", "unknown: the cast Pointer"),
    ("scale_encode", PUT_CODE, "    if (out[0] == 90) out[0] = 90;\n" + PUT_CODE, "reads out"),
    (
        "scale_encode",
        PUT_CODE,
        "    if (digest_length > 0) *(uint8_t *)digest = 0;\n" + PUT_CODE,
        "unknown: the cast NoOp",
    ),
    # what does not end
    ("write_varint", ROOM_FOR_VARINT, "    for (;;) {}\n", "no end: "),
    # the loop of multihash_read_many
    ("read_many", MANY, MANY.replace(") {", " && count != (size_t)1 << 28) {"), "not shown: "),
    ("read_many", MANY, MANY.replace("consumed < bytes", "consumed + 1 < bytes"), "not shown: "),
    ("read_many", MANY + TURN, "    int n = 0;\n" + MANY + TURN + LATE, "uninitialized: n"),
    ("read_many", MANY, "    if (bytes_length > 999) count = 1;\n" + MANY, "not shown: "),
    ("read_many", "            consumed += USUAL_LENGTH;\n", "", "not shown: "),
    ("read_many", "consumed + result.digest_offset, result", "consumed, result", "not shown: "),
    # a definition without a row, one whose conditions no call meets, and a solver that gives up
    (
        "get_varint",
        "return [*rows, (True, (OVERFLOW, 0, at + 9))]",
        "return rows",
        "unknown: the definition has no",
    ),
    ("encode", "return fitting(code, digest_length, pair)", "return pair", "wrong result: "),
    (
        "read_head",
        "return z3.And(FIRST.holds(self.name, ",
        "return z3.And(False, FIRST.holds(self.name, ",
        "unknown: no input",
    ),
    ("get_varint", SOLVER, SOLVER + '\n        self.solver.set("rlimit", 1)', "unknown: z3"),
)
