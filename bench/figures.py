"""Figures as SVG, of Python's standard library alone: a paper with axes and legends, readable in a light scheme and in a dark one."""
from html import escape
from math import log10

FONT = '-apple-system, BlinkMacSystemFont, "Segoe UI", "Noto Sans", Helvetica, Arial, sans-serif'
# what is drawn, in the light scheme and in the dark one
COLORS = {
    'paper': ('#ffffff', '#0d1117'), 'edge': ('#d1d9e0', '#3d444d'), 'text': ('#1f2328', '#f0f6fc'), 'faint': ('#59636e', '#9198a1'),
    'grid': ('#e4e8ec', '#262c36'), 'bookmarks': ('#0969da', '#58a6ff'), 'none': ('#1a7f37', '#3fb950'),
    'mark-sweep': ('#bc4c00', '#f0883e'), 'packing': ('#8250df', '#a371f7'),
    'home': ('#54aeff', '#1f6feb'), 'gone': ('#f3b061', '#bd561d'), 'absent': ('#eaeef2', '#30363d'), 'alarm': ('#cf222e', '#ff7b72'),
}


class Figure:
    """A paper of so many units, with a title and a line below it. Later things are drawn over earlier ones."""

    def __init__(self, width, height, title, subtitle, scheme='both'):
        self.width, self.height, self.title, self.subtitle = width, height, title, subtitle
        self.scheme, self.parts = scheme, []
        self.text(24, 36, title, size=20, weight=600)
        self.text(24, 58, subtitle, size=14, color='faint')

    def put(self, name, **attributes):
        self.parts.append(element(name, attributes))

    def text(self, x, y, text, size=13, color='text', anchor='start', weight=400, turned=False):
        turn = {'transform': f'rotate(-90 {number(x)} {number(y)})'} if turned else {}
        attributes = {'x': x, 'y': y, 'font_size': size, 'class': f'fill-{color}', 'text_anchor': anchor, 'font_weight': weight, **turn}
        self.parts.append(element('text', attributes, escape(text)))

    def line(self, x1, y1, x2, y2, color='grid', width=1):
        self.put('line', x1=x1, y1=y1, x2=x2, y2=y2, **{'class': f'line-{color}'}, stroke_width=width)

    def way(self, points, color, width=2.5, dashes=None):
        """A line through points."""
        more = {'stroke_dasharray': dashes} if dashes else {}
        places = ' '.join(f'{number(x)},{number(y)}' for x, y in points)
        self.put('polyline', points=places, fill='none', **{'class': f'line-{color}'}, stroke_width=width, stroke_linejoin='round', **more)

    def area(self, points, color):
        self.put('polygon', points=' '.join(f'{number(x)},{number(y)}' for x, y in points), **{'class': f'fill-{color}'})

    def mark(self, shape, x, y, color, tip=''):
        """A mark of this shape: a disc, a square that is empty inside, or a diamond."""
        attributes = {'class': f'fill-{color}'}
        if shape == 'disc':
            name, attributes = 'circle', {**attributes, 'cx': x, 'cy': y, 'r': 4.5}
        elif shape == 'square':
            name, attributes = 'rect', {'class': f'hollow line-{color}', 'stroke_width': 2, 'x': x - 6, 'y': y - 6, 'width': 12, 'height': 12}
        else:
            places = ((x, y - 5), (x + 5, y), (x, y + 5), (x - 5, y))
            name, attributes = 'polygon', {**attributes, 'points': ' '.join(f'{number(a)},{number(b)}' for a, b in places)}
        self.parts.append(element(name, attributes, element('title', {}, escape(tip)) if tip else None))

    def svg(self):
        head = {'xmlns': 'http://www.w3.org/2000/svg', 'viewBox': f'0 0 {self.width} {self.height}', 'width': self.width,
                'height': self.height, 'role': 'img', 'font_family': FONT}
        paper = element('rect', {'class': 'paper', 'x': 0.5, 'y': 0.5, 'width': self.width - 1, 'height': self.height - 1, 'rx': 8})
        told = element('title', {}, escape(self.title)) + element('desc', {}, escape(self.subtitle))
        return element('svg', head, told + f'<style>{styles(self.scheme)}</style>\n' + paper + '\n' + '\n'.join(self.parts)) + '\n'


def number(value):
    return f'{value:.1f}'.rstrip('0').rstrip('.')


def element(name, attributes, inside=None):
    """An element. Names of attributes have a hyphen for each underscore."""
    told = ''.join(f' {key.replace("_", "-")}="{escape(number(value) if isinstance(value, float) else str(value))}"'
                   for key, value in attributes.items())
    return f'<{name}{told}/>' if inside is None else f'<{name}{told}>{inside}</{name}>'


def rules(place):
    """The rules of one scheme: the light one is in place 0, the dark one in place 1."""
    color = {name: pair[place] for name, pair in COLORS.items()}
    own = f'.paper{{fill:{color["paper"]};stroke:{color["edge"]}}}.hollow{{fill:{color["paper"]}}}'
    return own + ''.join(f'.fill-{name}{{fill:{value}}}.line-{name}{{stroke:{value}}}' for name, value in color.items())


def styles(scheme):
    """The rules of the scheme that a reader has chosen; or of one of the two, for a look at it."""
    if scheme == 'both':
        return rules(0) + f'@media (prefers-color-scheme:dark){{{rules(1)}}}'
    return rules(0 if scheme == 'light' else 1)


def magnitude(value):
    """Where a count stands on an axis of powers of ten, which begins with 0."""
    return log10(value + 1)


def short(value):
    """A number of few figures: 1000 is 1k."""
    if value >= 1_000_000:
        return f'{number(value / 1_000_000)}M'
    return f'{number(value / 1000)}k' if value >= 1000 else number(value)


def round_steps(most, about):
    """Even numbers from 0 to the first one that isn't below the most, about so many of them."""
    rough = max(most, 1) / about
    power = 10 ** int(log10(rough)) if rough >= 1 else 1
    step = next(power * factor for factor in (1, 2, 2.5, 5, 10) if power * factor >= rough)
    return [step * index for index in range(int(-(-most // step)) + 1)]
