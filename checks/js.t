#!/usr/bin/env bash
# Tests the package for JavaScript: npm test, a small part in browsers, what npm packs, and its types. pages.t installs it
# by the command of its page.
# shellcheck source=checks/lib/tap.sh
. "$(dirname "$0")/lib/tap.sh"
here=$PWD/bindings/js vectors=$PWD/crates/vectors/data browser=$PWD/bindings/js/tests/browser.js
node=node=20.19+ # this version too has what the package needs, but its support has ended

# No process may take more than that CPU time.
npm_test() { (cd "$here"; ulimit -t 600; npm test); }

# What is packed is installed elsewhere and imported from CommonJS too.
packed() {
  (cd "$here"; npm pack --loglevel=error --pack-destination "$work")
  mkdir "$work/elsewhere"
  cd "$work/elsewhere"
  npm_config_offline=true npm_config_cache=$work/npm npm install --loglevel=error "$work"/verified-multihash-*.tgz
  cmp "$here/LICENSE" node_modules/verified-multihash/LICENSE
  prints "true true" node --no-warnings --input-type=commonjs -e "
    const { Multihash, decode } = require('verified-multihash');
    import('verified-multihash').then((one) => console.log(
      decode(Uint8Array.of(1, 0)).code === 1, Multihash === one.Multihash));"
}

# A bundle with decode alone is as small as the page says.
bundle() {
  cd "$work/elsewhere"
  echo "import { decode } from 'verified-multihash'; console.log(decode(Uint8Array.of(1, 0)).code);" > one.mjs
  esbuild one.mjs --bundle --minify --format=esm --outfile=bundle.mjs
  prints 1 node bundle.mjs
  gzip -9 < bundle.mjs | wc -c
  [ "$(gzip -9 < bundle.mjs | wc -c)" -lt 4000 ]
}

# The types of what is packed, which need none of pages.
packed_types() {
  local strict=(tsc --noEmit --strict --exactOptionalPropertyTypes --target es2022)
  cd "$work/elsewhere"
  cp "$here/tests/types.ts" .
  echo '{ "type": "module" }' > package.json
  "${strict[@]}" --module nodenext --moduleResolution nodenext --lib es2022,dom,dom.iterable types.ts
  printf "export * from 'verified-multihash%s';\n" '' /cid > entries.ts
  "${strict[@]}" --module nodenext --moduleResolution nodenext --lib es2022 entries.ts
  "${strict[@]}" --module es2022 --moduleResolution node entries.ts
}

# The page of README.md, which reports what it shows.
page_of_readme() {
  { block_of "$here/README.md" html; cat << 'END'; } > "$work/elsewhere/page.html"
<script type="module">
fetch('/report', { method: 'POST', body: `${out.textContent}: ${out.textContent === 'code 18, size 2' ? 0 : 1} failed` });
</script>
END
  node "$browser" chromium page.html "$work/elsewhere"
}

# The page that decodes what is pasted, in one file, which is opened without a server.
inspector() {
  tools/generate inspector "$work/inspector.html"
  { cat "$work/inspector.html"; echo '<script type="module">'; cat "$here/tests/inspector.js"; echo '</script>'; } \
    > "$work/tested.html"
  node "$browser" chromium "file://$work/tested.html"
}

needs="$node npm" try "in Node.js" npm_test
ONLY='' needs="$node npm" try "the packed package" packed
needs="$node npm esbuild" try "a bundle of the packed package" bundle
needs="$node npm tsc" try "the packed package's types" packed_types
needs="$node chromium" try "in chromium" node "$browser" chromium tests/page.html "$here" "$vectors"
needs="$node firefox-esr" try "in firefox" node "$browser" firefox tests/page.html "$here" "$vectors"
needs="$node chromium" try "the packed package's page in chromium" page_of_readme
needs="$node chromium" try "the inspector in chromium" inspector
finish
