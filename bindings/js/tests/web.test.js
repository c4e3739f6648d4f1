// The hash functions of WebCrypto, which hashes where node:crypto is missing, as in a browser.
process.getBuiltinModule = undefined;
await import('./hashes.test.js');
export {};
