"""Pictures of meshes as PNG files, shaded, by a depth buffer, and curves as SVG files: with Python alone."""

import math
import struct
import zlib


def dot(a, b):
    return sum(x * y for x, y in zip(a, b))


def cross(a, b):
    return (a[1] * b[2] - a[2] * b[1], a[2] * b[0] - a[0] * b[2], a[0] * b[1] - a[1] * b[0])


def unit(a):
    size = math.sqrt(dot(a, a)) or 1.0
    return tuple(x / size for x in a)


def read(name):
    """The points and faces of an OBJ file; rows from 0."""
    points, faces = [], []
    with open(name, encoding="utf-8") as lines:
        for line in lines:
            words = line.split()
            if words and words[0] == "v":
                points.append(tuple(float(it) for it in words[1:4]))
            elif words and words[0] == "f":
                faces.append(tuple(int(it.split("/")[0]) - 1 for it in words[1:4]))
    return points, faces


class Canvas:
    """Pixels with their depth; shades are from 0 to 1, and a pixel that nothing is drawn on is white."""

    def __init__(self, wide, high):
        self.wide, self.high = wide, high
        self.depth = [-1e99] * (wide * high)
        self.colour = [(255, 255, 255)] * (wide * high)

    def triangle(self, corners, colour):
        """Of corners x, y, depth; those nearer cover others."""
        (ax, ay, az), (bx, by, bz), (cx, cy, cz) = corners
        twice = (bx - ax) * (cy - ay) - (cx - ax) * (by - ay)
        if abs(twice) < 1e-12:
            return
        for y in range(max(0, math.ceil(min(ay, by, cy))), min(self.high - 1, math.floor(max(ay, by, cy))) + 1):
            for x in range(max(0, math.ceil(min(ax, bx, cx))), min(self.wide - 1, math.floor(max(ax, bx, cx))) + 1):
                u = ((x - ax) * (cy - ay) - (cx - ax) * (y - ay)) / twice
                v = ((bx - ax) * (y - ay) - (x - ax) * (by - ay)) / twice
                if u < -1e-9 or v < -1e-9 or u + v > 1 + 1e-9:
                    continue
                z = az + u * (bz - az) + v * (cz - az)
                if z > self.depth[y * self.wide + x]:
                    self.depth[y * self.wide + x], self.colour[y * self.wide + x] = z, colour

    def halved(self):
        """Each four pixels as one."""
        small = Canvas(self.wide // 2, self.high // 2)
        for y in range(small.high):
            for x in range(small.wide):
                four = [self.colour[(2 * y + j) * self.wide + 2 * x + i] for j in (0, 1) for i in (0, 1)]
                small.colour[y * small.wide + x] = tuple(sum(it) // 4 for it in zip(*four))
        return small

    def write(self, name):
        rows = b"".join(b"\0" + bytes(c for p in self.colour[y * self.wide : (y + 1) * self.wide] for c in p) for y in range(self.high))

        def chunk(kind, data):
            return struct.pack(">I", len(data)) + kind + data + struct.pack(">I", zlib.crc32(kind + data))

        head = struct.pack(">IIBBBBB", self.wide, self.high, 8, 2, 0, 0, 0)
        with open(name, "wb") as out:
            out.write(b"\x89PNG\r\n\x1a\n" + chunk(b"IHDR", head) + chunk(b"IDAT", zlib.compress(rows, 9)) + chunk(b"IEND", b""))


def surfaces(name, meshes, size=320, towards=(0.75, -0.55, 0.45)):
    """Draws meshes side by side, each fitted into a square of `size` pixels, seen against `towards`; inner sides are red."""
    towards = unit(towards)
    right = unit(cross((0, 0, 1), towards))
    up = cross(towards, right)
    light = unit(tuple(t + 0.5 * u - 0.3 * r for t, u, r in zip(towards, up, right)))
    canvas = Canvas(2 * size * len(meshes), 2 * size)
    for place, (points, faces) in enumerate(meshes):
        seen = [(dot(p, right), dot(p, up), dot(p, towards)) for p in points]
        low = [min(p[i] for p in seen) for i in (0, 1)]
        high = [max(p[i] for p in seen) for i in (0, 1)]
        scale = 1.84 * size / max(high[0] - low[0], high[1] - low[1], 1e-12)
        middle = [(low[i] + high[i]) / 2 for i in (0, 1)]
        drawn = [(size * (2 * place + 1) + scale * (x - middle[0]), size - scale * (y - middle[1]), z) for x, y, z in seen]
        for face in faces:
            a, b, c = (points[v] for v in face)
            n = unit(cross(tuple(q - p for p, q in zip(a, b)), tuple(q - p for p, q in zip(a, c))))
            shade = 0.25 + 0.75 * max(0.0, dot(n, light))
            colour = (140, 191, 255) if dot(n, towards) > 0 else (150, 55, 40)
            canvas.triangle([drawn[v] for v in face], tuple(int(shade * it) for it in colour))
    canvas.halved().write(name)


def curves(name, title, rows, wide=320, high=180):
    """Draws small plots side by side: rows of (title of a plot, [(name of a curve, xs, ys)])."""
    colours = ("#1f5fa8", "#b3261e", "#2e7d32", "#8a5a00")
    box = f"0 0 {wide * len(rows)} {high + 40}"
    out = [f'<svg xmlns="http://www.w3.org/2000/svg" viewBox="{box}" font-family="sans-serif" font-size="11">']
    out += ['<rect width="100%" height="100%" fill="#fff"/>', f'<text x="10" y="16" font-size="13" font-weight="600">{title}</text>']
    for place, (what, lines) in enumerate(rows):
        xs, ys = [x for _, row, _ in lines for x in row], [y for _, _, row in lines for y in row]
        low, high_y = min(ys), max(ys)
        x0, x1, span = min(xs), max(max(xs), min(xs) + 1), (high_y - low) or 1.0
        left, top, w, h = place * wide + 52, 44, wide - 66, high - 30
        out.append(f'<rect x="{left}" y="{top}" width="{w}" height="{h}" fill="none" stroke="#b6c1cc"/>')
        out.append(f'<text x="{left}" y="{top - 7}">{what}</text>')
        out += [f'<text x="{left - 4}" y="{y}" text-anchor="end">{v:.4g}</text>' for y, v in ((top + 9, high_y), (top + h, low))]
        out.append(f'<text x="{left + w}" y="{top + h + 14}" text-anchor="end">{x1:g}</text>')
        for number, (label, row, values) in enumerate(lines):
            at = ((left + w * (x - x0) / (x1 - x0), top + h - h * (y - low) / span) for x, y in zip(row, values))
            points = " ".join(f"{x:.1f},{y:.1f}" for x, y in at)
            out.append(f'<polyline fill="none" stroke="{colours[number % 4]}" points="{points}"/>')
            out.append(f'<text x="{left + 6}" y="{top + 14 + 13 * number}" fill="{colours[number % 4]}">{label}</text>')
    with open(name, "w", encoding="utf-8", newline="") as svg:
        svg.write("\n".join([*out, "</svg>"]) + "\n")
