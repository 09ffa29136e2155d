// The beginning of the page. Its script stands in it compressed, and is put in here; the page's policy names its
// checksum too. This file is no module: `$` belongs to that script.
(async () => {
  const bytes = Uint8Array.from(atob(document.getElementById('script').textContent), (letter) => letter.charCodeAt(0));
  const stream = new Blob([bytes]).stream().pipeThrough(new DecompressionStream('gzip'));
  document.body.append(Object.assign(document.createElement('script'),
    { textContent: await new Response(stream).text() }));
})().catch((error) => {
  document.getElementById('state').replaceChildren(`This browser can not run the page: ${error.message}`);
  document.body.classList.add('ready');
});
