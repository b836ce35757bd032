"""Two clients in their order: one changes the lights, the other one counts who stands and who has arrived."""
import subprocess
import sys

import traci

ORDERS = ("lights", "counts")


def lights(until):
    names = traci.trafficlight.getIDList()
    while traci.simulation.getTime() < until:
        if traci.simulation.getTime() % 60 == 0:
            for name in names:
                traci.trafficlight.setPhase(name, 0)
        traci.simulationStep()


def counts(until):
    arrived = stand = 0
    edges = [edge for edge in traci.edge.getIDList() if not edge.startswith(":")]
    while traci.simulation.getTime() < until:
        traci.simulationStep()
        arrived += traci.simulation.getArrivedNumber()
        if traci.simulation.getTime() % 10 == 0:
            stand += sum(traci.edge.getLastStepHaltingNumber(edge) for edge in edges)
    print(arrived, stand)


if sys.argv[1] in ORDERS:
    traci.init(int(sys.argv[3]))
    traci.setOrder(ORDERS.index(sys.argv[1]) + 1)
    {"lights": lights, "counts": counts}[sys.argv[1]](float(sys.argv[2]))
    traci.close()
else:
    port = traci.getFreeSocketPort()
    sumo_words = ["--remote-port", str(port), "--num-clients", "2", "--no-step-log", "--no-warnings"]
    sumo = subprocess.Popen([sys.argv[1], *sys.argv[3:], *sumo_words], stdout=subprocess.DEVNULL)
    clients = [subprocess.Popen([sys.executable, __file__, order, sys.argv[2], str(port)]) for order in ORDERS]
    for client in clients:
        client.wait()
    sumo.wait()
