"""A title, a legend and a scale below a picture of the earth or of a part of it."""

# How high the strip below a picture is, and how wide a letter of its text is taken to be, on the picture of the whole earth.
HEIGHT = 18
LETTER = 1.95


def text(x, y, words, scale, kind="legend"):
    return f'<text class="{kind}" x="{x:.2f}" y="{y:.2f}" style="font: {"bold " if kind == "title" else ""}{3.6 * scale:.2f}px sans-serif; fill: #23272e">{words}</text>'


def swatch(x, y, kind, scale):
    """What a mark of the picture looks like: a dot, or a small rectangle."""
    shape, name = kind
    if shape == "dot":
        return f'<circle class="{name}" cx="{x + 2 * scale:.2f}" cy="{y - 1.2 * scale:.2f}" r="{1.1 * scale:.2f}"/>'
    fill = f' fill="{shape}"' if shape.startswith("#") else ""
    return f'<rect class="{name}" x="{x:.2f}" y="{y - 2.8 * scale:.2f}" width="{4 * scale:.2f}" height="{3.2 * scale:.2f}"{fill}/>'


def bar(east, y, length, scale):
    """A line as long as so many degrees of longitude, with its length."""
    end, start = east - 4 * scale, east - 4 * scale - length
    return [
        f'<path d="M{start:.2f} {y - 2 * scale:.2f}v{2 * scale:.2f}h{length}v{-2 * scale:.2f}" fill="none" stroke="#23272e" stroke-width="{0.4 * scale:.2f}"/>',
        text(start + length / 2 - 4.5 * LETTER * scale, y - 3 * scale, f"{length} degrees", scale),
    ]


def strip(sheet, title, marks):
    """The elements of the strip below a sheet (south, west, north, east), with the marks of the picture, each as its look and what it stands for."""
    south, west, _, east = sheet
    scale = (east - west) / 360
    top, x = -south, west + 4 * scale
    first, second = top + 7 * scale, top + 14 * scale
    elements = [f'<rect class="strip" x="{west}" y="{top}" width="{east - west}" height="{HEIGHT * scale:.2f}" fill="#ffffff"/>']
    elements.append(text(x, first, title, scale, "title"))
    for kind, words in marks:
        elements += [swatch(x, second, kind, scale), text(x + 6 * scale, second, words, scale)]
        x += (12 + LETTER * len(words)) * scale
    return elements + bar(east, second, 30 if scale == 1 else 5, scale)


def heights(sheet, pixels):
    """The height of a picture with its strip, in pixels for so many across, and in degrees."""
    south, west, north, east = sheet
    up = north - south + HEIGHT * (east - west) / 360
    return round(pixels * up / (east - west)), up
