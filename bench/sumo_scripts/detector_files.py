"""A day's loops and edges as files: one of each loop, two of all edges; the script reads them at the end."""
import os
import sys
import tempfile
import xml.etree.ElementTree as ElementTree

import traci

sumo_words = sys.argv[3:]
loops_given = ElementTree.parse(sumo_words[sumo_words.index("-a") + 1]).getroot()
with tempfile.TemporaryDirectory() as folder:
    for loop in loops_given:
        loop.set("file", f"{loop.get('id')}.xml")
        loop.set("freq", "300")
    for name, period in (("quarters", "900"), ("whole", "86400")):
        ElementTree.SubElement(loops_given, "edgeData", id=name, file=f"{name}.xml", period=period, excludeEmpty="true")
    path = os.path.join(folder, "day.add.xml")
    ElementTree.ElementTree(loops_given).write(path)
    sumo_words[sumo_words.index("-a") + 1] = path
    sumo_words += ["--vehroute-output", f"{folder}/ways.xml", "--statistic-output", f"{folder}/all.xml"]
    traci.start([sys.argv[1], *sumo_words, "--no-step-log", "--no-warnings"])
    while traci.simulation.getTime() < float(sys.argv[2]):
        traci.simulationStep(min(float(sys.argv[2]), traci.simulation.getTime() + 900))
    traci.close()
    files = [one.get("file") for one in loops_given if one.tag == "inductionLoop"]
    loops = [ElementTree.parse(os.path.join(folder, file)) for file in files]
    passed_loops = sum(int(one.get("nVehContrib")) for loop in loops for one in loop.iter("interval"))
    edges = ElementTree.parse(f"{folder}/whole.xml")
    left_edges = sum(int(one.get("left")) + int(one.get("arrived")) for one in edges.iter("edge"))
    arrived = len(list(ElementTree.parse(f"{folder}/ways.xml").iter("vehicle")))
print(arrived, passed_loops, left_edges)
