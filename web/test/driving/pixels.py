"""What is to be seen on the page, pixel by pixel: for what the DOM doesn't tell."""
import base64

# So many pixels of a picture for one of the page
FINE = 4
READ = """const [picture, done] = arguments, image = new Image();
image.onload = () => {
  const {width, height} = image, canvas = Object.assign(document.createElement('canvas'), {width, height});
  const context = canvas.getContext('2d');
  context.drawImage(image, 0, 0);
  done({width, bytes: [...context.getImageData(0, 0, width, height).data]});
};
image.src = `data:image/png;base64,${picture}`;"""
# Where the letters of a text of a drawing stand, from its beginning on its base line to its end
PLACE = """const [text] = arguments, {a, d, e, f} = text.getScreenCTM();
return {x: a * text.getAttribute('x') + e + scrollX, y: d * text.getAttribute('y') + f + scrollY,
    width: a * text.getComputedTextLength()};"""
BOX = """const {x, y, width, height} = arguments[0].getBoundingClientRect();
return {x: x + scrollX, y: y + scrollY, width, height};"""


def pixels(it, x, y, width, height):
    """The colours of a part of the page: rows of (red, green, blue), FINE of them for each pixel of the page."""
    clip = {"x": x, "y": y, "width": width, "height": height, "scale": FINE}
    told = it.command("Page.captureScreenshot", captureBeyondViewport=True, clip=clip)
    read = it.driver.execute_async_script(READ, told["data"])
    colours = [tuple(read["bytes"][at : at + 3]) for at in range(0, len(read["bytes"]), 4)]
    return [colours[at : at + read["width"]] for at in range(0, len(colours), read["width"])]


def is_underlined(it, text):
    """Whether a line without a gap is to be seen right below the letters of a text."""
    place = it.run(PLACE, text)
    rows = pixels(it, place["x"] + 0.5, place["y"] + 1, place["width"] - 1, 7)
    ground = rows[-1][0]
    return any(ground not in row for row in rows)


def middle_of(it, element, column, row, side):
    """The colour in the middle of a cell of a square picture, of as many cells as its side has."""
    box = it.run(BOX, element)
    cell = box["width"] / side
    seen = pixels(it, box["x"] + (column + 0.5) * cell - 1, box["y"] + (row + 0.5) * cell - 1, 2, 2)
    return seen[FINE][FINE]
