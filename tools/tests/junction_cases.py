"""Sheets with plain files of SUMO that were made by hand for the same junction; and slips of the templates."""
from dataclasses import dataclass, field


@dataclass(frozen=True)
class ByHand:
    """A sheet, its plain files (nodes, edges, connections), and further words of netconvert."""

    sheet: str
    plain: tuple[str, str, str]
    words: tuple[str, ...] = field(default=())


def nodes(*given):
    """Nodes of (name, x, y, type)."""
    return f"<nodes>{''.join(f'<node id={n!r} x={x!r} y={y!r}{kind}/>' for n, x, y, kind in told(given))}</nodes>"


def told(given):
    return ((name, str(x), str(y), f" type={kind!r}" if kind else "") for name, x, y, kind in given)


def edges(text, more=""):
    """Edges, a line each: name, begin, end, priority, lanes, metres a second."""
    lines = (line.split() for line in text.strip().splitlines())
    return "<edges>" + "".join(
        f'<edge id="{name}" from="{begin}" to="{end}" priority="{priority}" numLanes="{lanes}" speed="{speed}"/>'
        for name, begin, end, priority, lanes, speed in lines
    ) + more + "</edges>"  # fmt: skip


def connections(text):
    """Connections, a line each: from, lane, to, lane; several with semicolons between."""
    lines = (one.split() for line in text.strip().splitlines() for one in line.split(";") if one.strip())
    return "<connections>" + "".join(
        f'<connection from="{begin}" to="{end}" fromLane="{lane}" toLane="{to_lane}"/>'
        for begin, lane, end, to_lane in lines
    ) + "</connections>"  # fmt: skip


ENDS = ("N0", 0, 200, ""), ("E0", 200, 0, ""), ("S0", 0, -200, ""), ("W0", -200, 0, "")
CROSS_EDGES = """
Nin N0 C 2 1 13.89
Nout C N0 2 1 13.89
Ein E0 C 3 1 13.89
Eout C E0 3 1 13.89
Sin S0 C 2 1 13.89
Sout C S0 2 1 13.89
Win W0 C 3 1 13.89
Wout C W0 3 1 13.89
"""
CROSS_CONNECTIONS = """
Nin 0 Wout 0; Nin 0 Sout 0; Nin 0 Eout 0
Ein 0 Nout 0; Ein 0 Wout 0; Ein 0 Sout 0
Sin 0 Eout 0; Sin 0 Nout 0; Sin 0 Wout 0
Win 0 Sout 0; Win 0 Eout 0; Win 0 Nout 0
"""
CROSS_ARMS = """ARMS
arm,bearing,length,rank
N,0,200,minor
E,90,200,major
S,180,200,minor
W,270,200,major
"""
CROSS_LANES = """LANES
arm,lane,turns
N,1,L T R
E,1,L T R
S,1,L T R
W,1,L T R
"""


def plain_cross(control, sheet_control):
    """A cross of one lane each way, under a control of SUMO's nodes."""
    sheet = f"JUNCTIONS\njunction,control\nC,{sheet_control}\n{CROSS_ARMS}{CROSS_LANES}"
    files = nodes(("C", 0, 0, control), *ENDS), edges(CROSS_EDGES), connections(CROSS_CONNECTIONS)
    return ByHand(sheet, files)


TEE = ("E0", 150, 0, ""), ("S0", 0, -100, ""), ("W0", -150, 0, "")
TEE_EDGES = """
Ein E0 T 3 1 13.89
Eout T E0 3 1 13.89
Sin S0 T 2 1 8.33
Sout T S0 2 1 8.33
Win W0 T 3 1 13.89
Wout T W0 3 1 13.89
"""
TEE_CONNECTIONS = "Ein 0 Wout 0; Ein 0 Sout 0\nSin 0 Eout 0; Sin 0 Wout 0\nWin 0 Sout 0; Win 0 Eout 0"


def plain_tee(drive, words):
    """A junction of three arms with one sign to give way."""
    sheet = f"""JUNCTIONS
junction,control,drive
T,yield,{drive}
ARMS
arm,bearing,length,speed,rank
E,90,150,50,major
S,180,100,30,minor
W,270,150,50,major
LANES
arm,lane,turns
E,1,T L
S,1,L R
W,1,T R
"""
    return ByHand(sheet, (nodes(("T", 0, 0, "priority"), *TEE), edges(TEE_EDGES), connections(TEE_CONNECTIONS)), words)


RING = {  # the points of a quarter of a circle of 18 m, from north to west, by sine and cosine of 15 degrees and so on
    "N": "0,18 -4.66,17.39 -9,15.59 -12.73,12.73 -15.59,9 -17.39,4.66 -18,0",
    "W": "-18,0 -17.39,-4.66 -15.59,-9 -12.73,-12.73 -9,-15.59 -4.66,-17.39 0,-18",
    "S": "0,-18 4.66,-17.39 9,-15.59 12.73,-12.73 15.59,-9 17.39,-4.66 18,0",
    "E": "18,0 17.39,4.66 15.59,9 12.73,12.73 9,15.59 4.66,17.39 0,18",
}
NEXT = {"N": "W", "W": "S", "S": "E", "E": "N"}
RING_EDGES = "".join(
    f'<edge id="{arm}ring" from="{arm}r" to="{NEXT[arm]}r" priority="4" numLanes="1" speed="8.33" shape="{shape}"/>'
    for arm, shape in RING.items()
) + '<roundabout nodes="Nr Wr Sr Er" edges="Nring Wring Sring Ering"/>'  # fmt: skip
ROUNDABOUT = ByHand(
    """JUNCTIONS
junction,control,radius
R,roundabout,18
ARMS
arm,bearing,length
N,0,200
E,90,200
S,180,200
W,270,200
LANES
arm,lane,turns
N,1,
E,1,
S,1,
W,1,
""",
    (
        nodes(("Nr", 0, 18, ""), ("Er", 18, 0, ""), ("Sr", 0, -18, ""), ("Wr", -18, 0, ""), *ENDS),
        edges("\n".join(
            f"{arm}in {arm}0 {arm}r 3 1 13.89\n{arm}out {arm}r {arm}0 3 1 13.89" for arm in "NESW"), RING_EDGES),
        connections(""),
    ),
)  # fmt: skip
FIVE = ByHand(
    """JUNCTIONS
junction,control
C,right before left
ARMS
arm,bearing,length,speed
N,0,200,30
E,90,200,30
SE,135,200,30
S,180,200,30
W,270,200,30
LANES
arm,lane,turns
N,1,R T >E >SE
E,1,R T >S >SE
SE,1,>W >N >E >S
S,1,L T >E >SE
W,1,L T >S >SE
""",
    (
        nodes(("C", 0, 0, "right_before_left"), *ENDS, ("SE0", 141.42, -141.42, "")),
        edges("\n".join(
            f"{arm}in {arm}0 C 3 1 8.33\n{arm}out C {arm}0 3 1 8.33" for arm in ("N", "E", "SE", "S", "W"))),
        connections("""
Nin 0 Wout 0; Nin 0 Sout 0; Nin 0 Eout 0; Nin 0 SEout 0
Ein 0 Nout 0; Ein 0 Wout 0; Ein 0 Sout 0; Ein 0 SEout 0
SEin 0 Wout 0; SEin 0 Sout 0; SEin 0 Nout 0; SEin 0 Eout 0
Sin 0 Wout 0; Sin 0 Nout 0; Sin 0 Eout 0; Sin 0 SEout 0
Win 0 Nout 0; Win 0 Eout 0; Win 0 Sout 0; Win 0 SEout 0"""),
    ),
)  # fmt: skip
ONE_WAY = ByHand(
    """JUNCTIONS
junction,control
C,signals
ARMS
arm,bearing,length,out
N,0,200,1
E,90,200,2
S,180,200,1
W,270,200,0
LANES
arm,lane,turns
N,1,T
N,2,L
S,1,R T
W,1,R T
W,2,T L
PLANS
plan,cycle
day,60
PHASES
plan,green,permissive,seconds,yellow
day,W,,27,3
day,N:T S:RT,N:L,27,3
""",
    (
        nodes(("C", 0, 0, "traffic_light"), *ENDS),
        edges("""
Nin N0 C 3 2 13.89
Nout C N0 3 1 13.89
Eout C E0 3 2 13.89
Sin S0 C 3 1 13.89
Sout C S0 3 1 13.89
Win W0 C 3 2 13.89"""),
        connections("""
Nin 0 Sout 0; Nin 1 Eout 1
Sin 0 Eout 0; Sin 0 Nout 0
Win 0 Sout 0; Win 0 Eout 0; Win 1 Eout 1; Win 1 Nout 0"""),
    ),
)  # fmt: skip
WIDE = ByHand(
    """JUNCTIONS
junction,control
C,signals
ARMS
arm,bearing,length,out,speed
N,0,300,2,50
E,90,300,2,70
S,180,300,2,50
W,270,300,3,70
LANES
arm,lane,turns
N,1,R
N,2,T
N,3,L
N,4,L U
E,1,T R
E,2,T
E,3,T
S,1,R T
S,2,T L
W,1,R T
W,2,T
W,3,L
PLANS
plan,cycle
day,90
PHASES
plan,green,permissive,seconds,yellow,all red
day,E W:RT,,30,3,2
day,W:L N:R,,15,3,2
day,N:LT,N:RU,12,3,2
day,S,,13,3,2
""",
    (
        nodes(("C", 0, 0, "traffic_light"), ("N0", 0, 300, ""), ("E0", 300, 0, ""), ("S0", 0, -300, ""),
              ("W0", -300, 0, "")),
        edges("""
Nin N0 C 3 4 13.89
Nout C N0 3 2 13.89
Ein E0 C 3 3 19.44
Eout C E0 3 2 19.44
Sin S0 C 3 2 13.89
Sout C S0 3 2 13.89
Win W0 C 3 3 19.44
Wout C W0 3 3 19.44"""),
        connections("""
Nin 0 Wout 0; Nin 1 Sout 0; Nin 2 Eout 0; Nin 3 Eout 1; Nin 3 Nout 1
Ein 0 Nout 0; Ein 0 Wout 0; Ein 1 Wout 1; Ein 2 Wout 2
Sin 0 Eout 0; Sin 0 Nout 0; Sin 1 Nout 1; Sin 1 Wout 2
Win 0 Sout 0; Win 0 Eout 0; Win 1 Eout 1; Win 2 Nout 1"""),
    ),
)  # fmt: skip
FORK = ByHand(
    """JUNCTIONS
junction,control
Y,yield
ARMS
arm,bearing,length,rank
N,0,100,minor
A,120,100,major
B,240,100,major
LANES
arm,lane,turns
N,1,L R
A,1,R L
B,1,L R
""",
    (
        nodes(("Y", 0, 0, "priority"), ("N0", 0, 100, ""), ("A0", 86.6, -50, ""), ("B0", -86.6, -50, "")),
        edges("""
Nin N0 Y 2 1 13.89
Nout Y N0 2 1 13.89
Ain A0 Y 3 1 13.89
Aout Y A0 3 1 13.89
Bin B0 Y 3 1 13.89
Bout Y B0 3 1 13.89"""),
        connections("Nin 0 Bout 0; Nin 0 Aout 0\nAin 0 Nout 0; Ain 0 Bout 0\nBin 0 Aout 0; Bin 0 Nout 0"),
    ),
)  # fmt: skip


def street_sheet(middle):
    """The sheet of a street of three junctions, whose middle one has a control."""
    names = "ABC"
    arms = [
        f"{name},{arm},{bearing},{200 if arm in 'NS' else 300},{'minor' if arm in 'NS' else 'major'},{end}"
        for place, name in enumerate(names)
        for arm, bearing, end in (
            ("N", 0, ""), ("E", 90, f"{names[place + 1]}:W" if place < 2 else ""), ("S", 180, ""),
            ("W", 270, f"{names[place - 1]}:E" if place else ""))
    ]  # fmt: skip
    lanes = [f"{name},{arm},1,L T R" for name in names for arm in "NESW"]
    lit = [name for name in names if name != "B" or middle == "signals"]
    plans = [f"{name},day,60,{10 * place}" for place, name in enumerate(lit)]
    phases = [f"{name},day,{green},{gives_way},27" for name in lit for green, gives_way in (
        ("E:TR W:TR", "E:L W:L"), ("N:TR S:TR", "N:L S:L"))]
    blocks = [
        "JUNCTIONS\njunction,control\nA,signals\nB," + middle + "\nC,signals",
        "ARMS\njunction,arm,bearing,length,rank,leads to\n" + "\n".join(arms),
        "LANES\njunction,arm,lane,turns\n" + "\n".join(lanes),
        "PLANS\njunction,plan,cycle,offset\n" + "\n".join(plans),
        "PHASES\njunction,plan,green,permissive,seconds\n" + "\n".join(phases),
    ]
    return "\n".join(blocks) + "\n"


STREET_NODES = ("A.W0", -300, 0, ""), ("C.E0", 900, 0, ""), *(
    (f"{name}.{arm}0", 300 * place, y, "") for place, name in enumerate("ABC") for arm, y in (("N", 200), ("S", -200)))
STREET_EDGES = "\n".join([
    "A.Win A.W0 A 3 1 13.89\nA.Wout A A.W0 3 1 13.89\nC.Ein C.E0 C 3 1 13.89\nC.Eout C C.E0 3 1 13.89",
    "B.Win A B 3 1 13.89\nA.Ein B A 3 1 13.89\nC.Win B C 3 1 13.89\nB.Ein C B 3 1 13.89",
    *(f"{name}.{arm}in {name}.{arm}0 {name} 2 1 13.89\n{name}.{arm}out {name} {name}.{arm}0 2 1 13.89"
      for name in "ABC" for arm in "NS"),
])  # fmt: skip
OUT = {"A": {"E": "B.Win", "W": "A.Wout"}, "B": {"E": "C.Win", "W": "A.Ein"}, "C": {"E": "C.Eout", "W": "B.Ein"}}
STREET_CONNECTIONS = "\n".join(
    f"{name}.{arm}in 0 {OUT[name].get(end, f'{name}.{end}out')} 0"
    for name in "ABC" for arm in "NESW" for end in "NESW" if end != arm
)  # fmt: skip


def plain_street(middle, kind):
    """A street of three junctions, whose middle one has a control of SUMO's nodes."""
    places = [(name, 300 * place, 0, kind if name == "B" else "traffic_light") for place, name in enumerate("ABC")]
    files = nodes(*places, *STREET_NODES), edges(STREET_EDGES), connections(STREET_CONNECTIONS)
    return ByHand(street_sheet(middle), files)


BY_HAND = {
    "cross with stop signs": plain_cross("priority_stop", "stop"),
    "cross with yield signs": plain_cross("priority", "yield"),
    "cross, all stop": plain_cross("allway_stop", "all-way stop"),
    "cross, right before left": plain_cross("right_before_left", "right before left"),
    "tee": plain_tee("right", ()),
    "tee, driving on the left": plain_tee("left", ("--lefthand",)),
    "roundabout": ROUNDABOUT,
    "five arms": FIVE,
    "one-way street": ONE_WAY,
    "wide cross, turning back": WIDE,
    "fork": FORK,
    "street of three lights": plain_street("signals", "traffic_light"),
    "street with a stop in the middle": plain_street("stop", "priority_stop"),
}
RILSA_1 = """JUNCTIONS
junction,control
0,signals
ARMS
arm,bearing,length
N,0,500
E,90,500
S,180,500
W,270,500
LANES
arm,lane,turns,pocket
N,1,T R,
N,2,L,90
E,1,T R,
E,2,L,90
S,1,T R,
S,2,L,90
W,1,T R,
W,2,L,90
PLANS
plan,cycle
own,72
PHASES
plan,green,permissive,seconds,yellow,all red,minimum,walk,walk seconds
own,,,2,0,0,,N S,
own,E:TR W:TR,E:L W:L,40,3,5,12,N S,12
own,,,2,0,0,,E W,
own,N:TR S:TR,N:L S:L,12,3,5,12,E W,12
"""
# (template, what stands there, the slip, its cell, what is told of it)
SLIPS = (
    ("cross", "C,signals,right", "C,signal,right", "B8", "did you mean signals?"),
    ("cross", "C,signals,right", ",signals,right", "A8", "is no name of a junction"),
    ("cross", "C,signals,right", "C,signals,middle", "C8", "is no side of the road"),
    ("cross", "C,signals,right", "C,yield,right", "A58", "has no light"),
    ("cross", "JUNCTIONS\n", "JUNCTION\n", "A4", "did you mean JUNCTIONS?"),
    ("cross", "bearing,street", "baering,street", "B13", "did you mean bearing?"),
    ("cross", "arm,bearing,street", "arm,street,street", "A13", "lacks the column 'bearing'"),
    ("cross", "N,0,Mill", "N,north,Mill", "B14", "is no number of degrees"),
    ("cross", "E,90,Main", "E,450,Main", "B15", "is out of bounds"),
    ("cross", "E,90,Main", "E,5,Main", "A15", "lies 5 degrees from arm N"),
    ("cross", "S,180,", "N,180,", "A16", "the arm 'N' stands twice"),
    ("cross", "Mill Road,380,50,1,minor\nE", "Mill Road,0.4 km,50,1,minor\nE", "D14", "write 400"),
    ("cross", "480,50,2,major\nS", "480,30 mph,2,major\nS", "E15", "write 48"),
    ("cross", "480,50,2,major\nS", "480,500,2,major\nS", "E15", "write 10 to 130 km/h"),
    ("cross", "480,50,2,major\nS", "480,50,1.5,major\nS", "F15", "is not whole"),
    ("cross", "480,50,2,major\nS", "480,50,0,major\nS", "C24", "leads to no arm with a lane out"),
    ("cross", "480,50,2,major\nS", "480,50,2,main\nS", "G15", "is no rank"),
    ("cross", "N,1,T R,", "M,1,T R,", "A23", "there is no arm 'M'"),
    ("cross", "N,2,L,60", "N,3,L,60", "B24", "is not the next one"),
    ("cross", "N,1,T R,", "N,1,,", "C23", "the lane has no turns"),
    ("cross", "N,1,T R,", "N,1,T X,", "C23", "a turn that is none, 'X'"),
    ("cross", "N,1,T R,\nN,2,L,60", "N,1,L,\nN,2,T R,60", "C24", "cross those of the lane before"),
    ("cross", "N,2,L,60", "N,2,L,400", "C24", "does not fit into arm N"),
    ("cross", "N,2,L,60", "N,2,L,200 ft", "D24", "write 61"),
    ("cross", "N,1,T R,\n", "N,1,T R,60\n", "C23", "has pockets alone"),
    ("cross", "07:00,W,24,", "07:00,W,2x4,", "C38", "is no number of vehicles"),
    ("cross", "07:00,W,24,", "07:00,W,-24,", "C38", "is no number of vehicles"),
    ("cross", "07:00,W,24,", "25:00,W,24,", "A38", "is no time"),
    ("cross", "07:00,W,24,186,19,5", "07:00,W,24,186,19,105", "F38", "is more than 100 %"),
    ("cross", "07:15,W,29,", "07:00,W,29,", "C42", "is counted twice from 7:00"),
    ("cross", "07:15,W,29,", "07:15,Q,29,", "B42", "no arm is called 'Q'"),
    ("cross", "left,through,right,heavy", "left,throughh,right,heavy", "D37", "is no turn and no other column"),
    ("cross", "90,90,0", "90,95,0", "B58", "add up to 90 s, not 95 s"),
    ("cross", "90,90,0", "90,90,90", "C58", "is no part of the cycle"),
    ("cross", "75,75,0", "90,75,0", "A59", "the plan '90' stands twice"),
    ("cross", "90,E:L W:L,,12,", "90,E:L,,12,", "C38", "W:L never has green in plan 90"),
    ("cross", "90,E:L W:L,,12,", "90,E:L W:LU,,12,", "B67", "no lane of W turns U"),
    ("cross", "90,E:L W:L,,12,3,2,5", "90,E:L W:L,,12,3,2,15", "D67", "shorter than its minimum of 15 s"),
    ("cross", "90,E:L W:L,,12,", "90,E:L Q:L,,12,", "B67", "there is no arm 'Q'"),
    ("cross", "90,E:L W:L,,12,", "9O,E:L W:L,,12,", "A67", "there is no plan '9O'"),
    ("cross", "90,E:TR W:TR,,35,3,2,10,N S,12", "90,E:TR W:TR,,35,3,2,10,N S,40", "D66", "need 40 s of green"),
    ("cross", "90,E:TR W:TR,,35,", "90,E:T W:TR,,35,", "B66", "lane 1 of E has green for some of its turns alone"),
    ("cross", "90,E:TR W:TR,,35,", "90,E:TR W:TR,E:R,35,", "C66", "E:R is green and permissive"),
    ("tee", "E,2,L,40", "E,2,T,40", "D25", "80 vehicles turn L from E, and no lane does"),
    ("tee", "S,180,Church Lane,200,30,1,minor", "S,180,Church Lane,200,30,1,major", "A7", "have one rank"),
    ("tee", "16:45,25", "17:45,25", "D25", "has not each quarter of the hour"),
    ("street", "320,50,1,major,B:W", "320,50,1,major,B:Q", "B13", "B has N, E, S, W"),
    ("street", "A,E,90,Main Street,320,50,1,", "A,E,90,Main Street,320,50,2,", "B13", "2 lanes lead out"),
    ("street", "B,W,270,Main Street,320", "B,W,270,Main Street,330", "B13", "is 320 m long"),
    ("street", "B,W,270,Main", "B,W,180.5,Main", "B19", "lies"),
    ("street", "B,07:00,08:00,N", ",07:00,08:00,N", "E42", "a count of no junction"),
    ("roundabout", "R,roundabout,18,1", "R,roundabout,3,1", "C7", "write 8 to 100 m"),
)
