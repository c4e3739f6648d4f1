"""Edits that are wrong: the function whose check has to reject each, the text, what is put in its place, and how the reason
starts. All but the last are of format.js."""

VARINT = "export function readVarint(bytes, at, end) {"
FAILED = "({ status, code: 0, size: 0, next })"
LENGTHS = "varintLength(code) + varintLength(size)"
FOUND = "const { status, size, next } = result;"
TURN = "index < length; index++)\n    if (left"
SIZE = "size: length - next, next: length"

EDITS = [
    # another result
    ("readVarint", "byte === 0 && index > at)", "byte === 0 && index > middle)", "wrong result"),
    ("readVarint", "'insufficient' : 'overflow'", "'insufficent' : 'overflow'", "wrong result: status"),
    ("readVarint", "stop < at + VARINT_LENGTH_MAX ?", "stop <= at + VARINT_LENGTH_MAX ?", "wrong result: status"),
    ("readVarint", "value: high === 0 ? low :", "value: high < 16 ? low :", "wrong result: value"),
    ("readVarint", "high < 2 ** (53 - bits)", "high < 2 ** (52 - bits)", "wrong result: value"),
    ("readVarint", "value: 0, next: index + 1", "value: 0, next: index", "wrong result: next"),
    ("head", "code: code.value", "code: size.value", "wrong result: code"),
    ("decode", SIZE, "size: 0, next: length", "wrong result: size"),
    ("head", "second < 128) return", "second <= 128) return", "wrong result"),
    ("head", "readVarint(bytes, code.next, end)", "readVarint(bytes, at, end)", "wrong result"),
    ("read", "if (size > limit)", "if (size >= limit)", "wrong result"),
    ("read", "if (size > limit)", "if (size > limit && code !== 2 ** 40)", "wrong result"),
    ("decode", "if (next < length)", "if (next + 1 < length)", "wrong result"),
    ("scaleDecode", "if (high >= 2 ** 31)", "if (high > 2 ** 31)", "wrong result"),
    ("encodingStatus", "code < 2 ** 63 ?", "code <= 2 ** 63 ?", "wrong result: status"),
    ("varintLength", "value >= limit;", "value > limit;", "wrong result: length"),
    ("encodedLength", LENGTHS, "varintLength(code) + 1", "wrong result: length"),
    ("encode", "new Uint8Array(encodedLength(code, size))", "new Uint8Array(300)", "wrong result: length"),
    ("scaleEncode", "writeWord(highPart(code, 32), bytes, 4)", "writeWord(0, bytes, 4)", "wrong result: byte"),
    ("scaleEncode", "bytes[8] = size;", "", "wrong result: the indices written"),
    ("scaleEncode", "bytes.set(digest, 9);", "", "wrong result: number of digest bytes"),
    ("compare", "leftSize < rightSize ? -1", "leftSize > rightSize ? -1", "wrong result: order"),
    # by induction a turn of the loop is seen to be wrong, not arrays for which the result is
    ("compareBytes", "left[index] < right[index] ? -1 : 1", "left[index] < right[index] ? 1 : -1", "not shown"),
    ("compareBytes", f"let index = 0; {TURN}", f"let index = 1; {TURN}", "not shown"),
    ("compareBytes", TURN, "index < length; index += 2)\n    if (left", "not shown"),
    ("compareBytes", TURN, "index < length - 1; index++)\n    if (left", "not shown"),
    # a field that is missing, that nobody asked for, that is computed when it is read, or of another type
    ("readVarint", "value: 0, next: stop };", "next: stop };", "wrong result: the fields"),
    ("head", FAILED, "({ status, code: 0, size: 0, next, start: 0 })", "wrong result: the fields"),
    ("head", FAILED, "({ status, code: 0, size: 0, get next() { return next; } })", "unknown: FunctionExpression"),
    ("head", FAILED, "({ __proto__: { status, code: 0 }, size: 0, next })", "unknown: a member"),
    ("readVarint", "'not_minimal', value: 0", "'not_minimal', value: -0", "unknown: UnaryExpression"),
    ("readVarint", "'not_minimal', value: 0", "'not_minimal', value: BigInt(0)", "wrong result: value"),
    ("decode", SIZE, "size: `${length - next}`, next: length", "unknown: TemplateLiteral"),
    # bytes that are not there, or not the argument's
    ("readVarint", "Math.min(end, at + VARINT_LENGTH_MAX)", "at + VARINT_LENGTH_MAX", "outside bytes"),
    ("head", "if (end - at >= 2)", "if (end - at >= 1)", "outside bytes"),
    ("scaleDecode", "bytes[at] + bytes[at + 1] * 2 ** 8", "bytes[at] + (bytes[at + 9] & 0)", "outside bytes"),
    ("readVarint", VARINT, f"{VARINT}\n  if (at < end && bytes[at - 1] === 255) return 0;", "outside bytes"),
    ("head", "bytes[at + 1];", "bytes[at + 1 / 2];", "unknown: quotient"),
    ("compareBytes", TURN, "index <= length; index++)\n    if (left", "outside one"),
    ("writeVarint", "  bytes[index] = rest;", "  bytes[index] = rest;\n  bytes[index + 1] = 0;", "outside out"),
    ("writeVarint", "bytes[index] = (low & 127) + 128", "bytes[index] = low + 128", "not exact: a byte"),
    ("scaleEncode", "bytes.set(digest, 9)", "bytes.set(digest, 10)", "outside a new array"),
    ("scaleEncode", "bytes.set(digest, 9)", "bytes.set(digest.subarray(0), 9)", "unknown: a call"),
    ("readVarint", VARINT, f"{VARINT}\n  if (at < end) bytes[at] = 0;", "unknown: bytes is written"),
    ("compare", "Bytes(left, right, leftSize)", "Bytes(left, left, leftSize)", "unknown: other"),
    ("encode", "new Uint8Array(encodedLength", "new Array(encodedLength", "unknown: new Array"),
    ("scaleEncode", "  bytes.set(digest, 9)", "  /* @__PURE__ */ bytes.set(digest, 9)", "unknown: @__PURE__"),
    ("scaleEncode", "function writeWord", "/* @__NO_SIDE_EFFECTS__ */\nfunction writeWord", "unknown: @__NO"),
    ("readVarint", VARINT, f"{VARINT}\n  const waste = new Uint8Array(2 ** 31 - 1);", "unknown: new Uint8Array"),
    # numbers that are not exact, or none
    ("readVarint", "high < 2 ** (53 - bits)", "high < 2 ** (54 - bits)", "not exact"),
    ("readVarint", "weight *= 128;", "weight *= weight + 127;", "unknown: *"),
    ("read", "if (size > limit)", "if (size == limit + 1 || size > limit)", "unknown: =="),
    ("compare", "leftCode < rightCode ?", "`${leftCode}` < `${rightCode}` ?", "unknown: TemplateLiteral"),
    ("scaleEncode", "(word >>> (8 * index))", "(word >> (8 * index))", "unknown: >>"),
    # what depends on more than the arguments, does more than to return, or hides what it does
    ("readVarint", VARINT, f"let calls = 0;\n{VARINT}\n  if (++calls === 1000) return 0;", "unknown: let"),
    ("readVarint", VARINT, f"const last = {{ at: 0 }};\n{VARINT}\n  last.at = at;", "unknown: the constant last"),
    ("varintLength", VARINT, f"const Number = (x) => x;\n{VARINT}", "unknown: the constant Number"),
    ("readVarint", VARINT, f"Uint8Array.prototype.set = () => {{}};\n{VARINT}", "unknown: ExpressionStatement"),
    ("readVarint", VARINT, f"import {{ readMany }} from './core.js';\n{VARINT}", "unknown: ImportDeclaration"),
    ("readVarint", VARINT, "export async function readVarint(bytes, at, end) {", "unknown: the constant"),
    ("readVarint", VARINT, "export function readVarint(bytes, at, end = bytes.length) {", "unknown: the declaration"),
    ("readVarint", VARINT, f"{VARINT}\n  if (arguments.length > 3) return 0;", "unknown: Identifier arguments"),
    ("readVarint", VARINT, f"{VARINT}\n  if (at === 2 ** 40) throw bytes;", "unknown: ThrowStatement"),
    ("readVarint", VARINT, f"export function also() {{}}\n{VARINT}", "unknown: no definition"),
    ("decode", FOUND, f"{FOUND}\n  const DIGEST_MAX = 255;", "unknown: another DIGEST_MAX"),
    ("decode", FOUND, f"{FOUND}\n  var DIGEST_MAX;", "unknown: var"),
    ("encodedLength", LENGTHS, f"{LENGTHS} + ((Number) => Number - size)(size)", "unknown: ArrowFunction"),
    ("varintLength", "limit *= 128) length++", "limit *= 1) length++", "no end"),
    ("varintLength", "  let length = 1;", "  let length = value > 77 ? varintLength(value) : 1;", "no end"),
    # a solver that gives up
    ("head", "solver.add(*RANGES", 'solver.set("rlimit", 1)\n        solver.add(*RANGES', "unknown: z3"),
]
