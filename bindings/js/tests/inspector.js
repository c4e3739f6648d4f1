// What inspector.html shows of texts: js.t appends this to the page, which is opened as a file. It sends a report to
// the port that its address has.
const DIGEST = 'e3b0c44298fc1c149afbf4c8996fb92427ae41e4649b934ca495991b7852b855';
const OF_SHA256 = ['sha2-256', 'code: 0x12', 'size in bytes: 32', `digest: ${DIGEST}`, `in hexadecimal: 1220${DIGEST}`];
const TEXTS = [
  [` 0x12 20${DIGEST.toUpperCase()} `, 'hexadecimal', ...OF_SHA256],
  ['QmdfTbBqBPQ7VNxZEYEj14VmRuZBkqFbiwReogJgS1zR1n', 'CID, version 0, codec 0x70 (dag-pb)', ...OF_SHA256],
  ['bafkreihdwdcefgh4dqkjv67uzcmw7ojee6xedzdetojuzjevtenxquvyku', 'CID, version 1, codec 0x55 (raw)', ...OF_SHA256],
  [`f01551220${DIGEST}`, 'CID, version 1, codec 0x55 (raw)', ...OF_SHA256],
  ['1oui', 'base58', 'identity', 'code: 0x0', 'size in bytes: 2', 'digest: 6869'],
  ['ffffffffffffffff7f00', 'none that this page knows', 'code: 0x7fffffffffffffff', 'digest: empty'],
  ['1202aabbcc', '1 byte follows the multihash'],
  ['baeaaaaaaaa', '2 bytes follow the multihash'],
  ['BAFKREIHDWDCEFGH4', 'the text must start with b, f, z or Qm'],
  ['l0O', 'the text is neither hexadecimal, nor base58, nor a CID'],
];

const failed = TEXTS.flatMap(([text, ...parts]) => {
  document.querySelector('input').value = text;
  document.querySelector('input').dispatchEvent(new Event('input'));
  const shown = document.querySelector('output').innerText;
  return parts.filter((part) => !shown.includes(part)).map((part) => `${text}: no ${part} in ${shown}`);
});
await fetch(`http://127.0.0.1:${new URLSearchParams(location.search).get('port')}/report`, {
  method: 'POST', mode: 'no-cors', body: [...failed, `${TEXTS.length} texts, ${failed.length} failed`].join('\n'),
});
export {};
