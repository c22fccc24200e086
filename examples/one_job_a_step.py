#!/usr/bin/env python3
"""A simulation that runs one job of the program in each time step, so that it can react to what came of the one before.

    examples/one_job_a_step.py PROGRAM FOLDER [STEPS]

A box falls onto another one, whose lower corners are solid. Each vertex has a name of the simulation's own, which stays, while each job numbers its
vertices from 1; and a velocity, which is carried along by the log. What stays from step to step is the mesh file, the names, the velocities, and which
vertices are solid. Writes into FOLDER, and says how each step was taken. Status 1 where a job is refused.
"""
import os
import subprocess
import sys

# nothing is left beside the examples
sys.dont_write_bytecode = True
from carry import carried  # noqa: E402
from replay import read, read_mesh, text_of, write  # noqa: E402

# settings, and which passes come after a step, are said again in each job
SETTINGS, PASSES = ["set depth 8", "set passes 5"], ["split 700", "collapse 150", "flip"]
TIME, GRAVITY = 0.1, -1000.0

def box(low, side, first):
    corners = [tuple(l + side * (k >> i & 1) for i, l in enumerate(low)) for k in range(8)]
    sides = ((0, 2, 3, 1), (4, 5, 7, 6), (0, 1, 5, 4), (2, 6, 7, 3), (0, 4, 6, 2), (1, 3, 7, 5))
    return corners, [(first + q[0], first + q[i], first + q[i + 1]) for q in sides for i in (1, 2)]

class Surface:
    def __init__(self):
        low, high = box((0, 0, 0), 1000, 1), box((100, 90, 1300), 800, 9)
        self.mesh = "".join("{} {} {} {}\n".format(kind, *row) for kind, rows in (("v", low[0] + high[0]), ("f", low[1] + high[1])) for row in rows)
        # all of these by the vertices' numbers in the mesh file
        self.names = {v: v for v in range(1, 17)}
        self.velocity = {v: (0.0, 0.0, 0.0) for v in self.names}
        self.solid = {v for v, point in enumerate(low[0], 1) if point[2] == 0}
        self.next_name = 17

    def take(self, log):
        """Goes on with the mesh after a log: numbers are those of the stored mesh, where the living vertices stand by rising id."""
        for _, mesh, known in carried(dict(self.velocity), log, read_mesh(self.mesh, 0)):
            pass
        for words in (line.split(" ") for line in log.split("\n")):
            if words[0] == "collapse" and int(words[2]) in self.solid:
                self.solid.add(int(words[1]))
        for v in sorted(mesh.points.keys() - self.names.keys()):
            self.names[v], self.next_name = self.next_name, self.next_name + 1
        number = {v: k for k, v in enumerate(sorted(mesh.points), 1)}
        self.names, self.velocity = ({k: its[v] for v, k in number.items()} for its in (self.names, known))
        self.solid, self.mesh = {k for v, k in number.items() if v in self.solid}, text_of(mesh, 0)

def job(program, folder, surface, shifts):
    """The log of one step with its passes."""
    rows = [f"solid {v}" for v in sorted(surface.solid)] + ["shift {} {} {} {}".format(v, *by) for v, by in shifts.items()]
    write(os.path.join(folder, "mesh.obj"), surface.mesh)
    write(os.path.join(folder, "steps.txt"), "\n".join([*SETTINGS, *rows, "step", *PASSES, "save"]) + "\n")
    ran = subprocess.run([program, "track", "mesh.obj", "steps.txt", "t"], cwd=folder, stdout=subprocess.PIPE)
    if ran.returncode != 0:
        sys.exit(f"one_job_a_step: the job ended with {ran.returncode}")
    return ran.stdout.decode()

def main(program, folder, steps=12):
    os.makedirs(folder, exist_ok=True)
    surface = Surface()
    for step in range(1, int(steps) + 1):
        falling = {v: (x, y, z + TIME * GRAVITY) for v, (x, y, z) in surface.velocity.items() if v not in surface.solid and surface.names[v] > 8}
        log = job(os.path.abspath(program), folder, surface, {v: [round(TIME * c) for c in by] for v, by in falling.items()})
        moves = {int(v): [int(c) / TIME for c in by] for kind, v, *by in (line.split(" ") for line in log.split("\n") if line.startswith("move "))}
        # the velocity is that of the move that was taken, not of the one that was requested
        surface.velocity = {v: tuple(moves.get(v, (0.0, 0.0, 0.0))) for v in surface.velocity}
        surface.take(log)
        if read(os.path.join(folder, "t-000001.obj")) != surface.mesh:
            sys.exit("one_job_a_step: the stored mesh is not the one of the log")
        way = next(line for line in log.split("\n") if line.startswith("moved "))
        print(f"step {step}: {way}, {len(surface.names)} vertices, {sum(name > 16 for name in surface.names.values())} of them new, {len(surface.solid)} solid")

if __name__ == "__main__":
    if len(sys.argv) not in (3, 4):
        sys.exit(__doc__)
    main(*sys.argv[1:])
