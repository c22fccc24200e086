"""Imports the meshes PREFIX-000000.obj .. into Blender (3.2 or later), one a frame, in the place of the cube with which it begins.

    blender --python examples/view/blender_import.py -- PREFIX
"""
import glob
import sys

import bpy

names = sorted(glob.glob(glob.escape(sys.argv[-1]) + "-" + 6 * "[0-9]" + ".obj"))
print(f"blender_import: {len(names)} meshes")
for cube in [it for it in bpy.data.objects if names and it.name == "Cube"]:
    bpy.data.objects.remove(cube)
for frame, name in enumerate(names):
    bpy.ops.wm.obj_import(filepath=name, forward_axis="Y", up_axis="Z")
    for shape in bpy.context.selected_objects:
        for when in (frame - 1, frame, frame + 1):
            shape.hide_viewport = shape.hide_render = when != frame
            shape.keyframe_insert("hide_viewport", frame=when)
            shape.keyframe_insert("hide_render", frame=when)
bpy.context.scene.frame_start, bpy.context.scene.frame_end = 0, max(0, len(names) - 1)
