#!/usr/bin/env python3
"""Enright's deformation: a ball is drawn out to a thin sheet and back in three units of time. enright.cpp in Python.

    examples/flows/enright.py FOLDER [h=0.05] [end=3] [steps=N] [smooth=0.2] [log=1] [frames=N]
"""

import math
import sys

import flow
import shapes
from flow import norm, plus

MIDDLE, RADIUS = (0.35, 0.35, 0.35), 0.15


def velocity(p, t):
    c, (x, y, z) = math.cos(math.pi * t / 3), (math.pi * q for q in p)
    s, u, v, w = math.sin, math.sin(2 * x), math.sin(2 * y), math.sin(2 * z)
    return 2 * (s(x) * s(x)) * v * w * c, -u * (s(y) * s(y)) * w * c, -u * v * (s(z) * s(z)) * c


def carried(p, t, dt):
    """By the classical Runge-Kutta method."""
    a = velocity(p, t)
    b = velocity(plus(p, a, dt / 2), t + dt / 2)
    c = velocity(plus(p, b, dt / 2), t + dt / 2)
    d = velocity(plus(p, c, dt), t + dt)
    return plus(p, tuple(i + 2.0 * j + 2.0 * k + m for i, j, k, m in zip(a, b, c, d)), dt / 6)


def main():
    words = flow.words_of(sys.argv[1:])
    h, end, most = (words[1].get(name, number) for name, number in (("h", 0.05), ("end", 3), ("steps", 1e9)))
    run, t = flow.Run(words, *shapes.ball(MIDDLE, RADIUS, h), h), 0.0
    run.exact = run.volume
    run.write("first.obj")
    while t < end - 1e-12 and run.steps < most:
        # half an edge a step at most; a step ends at the middle
        fast = max(1e-12, max(norm(velocity(p, t)) for p in run.points))
        dt = min(3.0 / 150, 0.5 * h / fast, end - t)
        dt = min(dt, 1.5 - t) if 1.5 > t + 1e-12 else dt
        to, t = [carried(p, t, dt) for p in run.points], t + dt
        run.advance(to, t)
        if abs(t - 1.5) < 1e-9:
            run.write("middle.obj")
    run.end()
    off = [abs(norm(flow.minus(p, MIDDLE)) - RADIUS) / h for p in run.points]
    print(f"vertices off the ball: at most {max(off):.3f} h")


if __name__ == "__main__":
    main()
