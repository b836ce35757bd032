"""From counts of edges and turns, matrices and turn ratios to a demand that fits; and how well a run fits counts.

Here a way is a path of edges from where trips begin to where they end, a slice a period in which vehicles depart, a
kind a vehicle class, and a movement goes from an edge to the next one, or over the last edge to its end. What reckons
with NumPy and SciPy raises a Fault where these are missing (science.numpy_and_scipy).
"""
