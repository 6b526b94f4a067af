"""Small pictures: those of a browser with few colours, as a page of the documents shows them."""
import base64
import struct
import zlib

HEAD = b"\x89PNG\r\n\x1a\n"

# Reads a PNG, and answers its size, at most 256 colours and the number of each pixel's colour: each channel has 17 shades, or 9, or 5.
READ = """
const image = new Image();
image.src = 'data:image/png;base64,' + content;
await image.decode();
const { width, height } = image;
const canvas = Object.assign(document.createElement('canvas'), { width, height });
const context = canvas.getContext('2d');
context.drawImage(image, 0, 0);
const data = context.getImageData(0, 0, width, height).data;
for (const step of [16, 32, 64]) {
    const numbers = new Map();
    const pixels = new Uint8Array(width * height);
    for (let k = 0; k < pixels.length; k += 1) {
        const shade = (part) => Math.min(255, Math.floor((data[4 * k + part] + step / 2) / step) * step);
        const colour = shade(0) * 65536 + shade(1) * 256 + shade(2);
        if (!numbers.has(colour)) numbers.set(colour, numbers.size);
        pixels[k] = numbers.get(colour);
    }
    if (numbers.size > 256) continue;
    let text = '';
    for (let k = 0; k < pixels.length; k += 8192) text += String.fromCharCode(...pixels.subarray(k, k + 8192));
    return [width, height, [...numbers.keys()], btoa(text)];
}
"""


def chunk(kind, content):
    return struct.pack(">I", len(content)) + kind + content + struct.pack(">I", zlib.crc32(kind + content))


def small(browser, content):
    """A PNG with at most 256 colours, which a browser reads."""
    width, height, colours, text = browser.run(f"return (async (content) => {{{READ}}})(arguments[0])", base64.b64encode(content).decode())
    pixels = base64.b64decode(text)
    data = b"".join(b"\0" + pixels[k : k + width] for k in range(0, len(pixels), width))
    head = struct.pack(">IIBBBBB", width, height, 8, 3, 0, 0, 0)
    palette = b"".join(struct.pack(">I", colour)[1:] for colour in colours)
    return HEAD + chunk(b"IHDR", head) + chunk(b"PLTE", palette) + chunk(b"IDAT", zlib.compress(data, 9)) + chunk(b"IEND", b"")
