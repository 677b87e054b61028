"""A component in Python: gives each thing that the camera sees the least range that the radar has in that direction.

A message is a dictionary, in the JSON form of Protocol Buffers. A field that is zero is left out, so fields are read by `get`.
"""
import math

WIDEST = 0.02  # how far apart, in radians, a box and a point may be


def track_of(box, points):
    """The track of a box, or None where the radar sees nothing there."""
    bearing = box.get("bearing", 0)
    near = [it for it in points if abs(it.get("bearing", 0) - bearing) <= WIDEST]
    point = min(near, key=lambda it: it["range"], default=None)
    if point is None:
        return None
    distance = point["range"]
    x, y = round(distance * math.cos(bearing), 3), round(distance * math.sin(bearing), 3)
    return {"id": box["id"], "label": box["label"], "distance": distance, "x": x, "y": y, "speed": point.get("speed", 0)}


def answer(messages):
    """The tracks of an image with the last scan, or nothing where there is none."""
    image, scan = (it.message for it in messages)
    tracks = [track_of(box, scan.get("points", [])) for box in image.get("boxes", [])]
    tracks = [it for it in tracks if it]
    return {"header": image["header"], "tracks": tracks} if tracks else None
