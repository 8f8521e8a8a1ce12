"""Cases that are too long to store, since they fill something: a tape, a roster, a plan."""
from drawn import setup_of


def quotes(count):
    """A number of quotes of one bid, each at its own price from 1 dollar on, published in batches of 16."""
    for number in range(1, count + 1):
        yield f"Q,N,ABC,A,{number},100,,"
        if number % 16 == 0:
            yield "F"


def published(count):
    return [f"PUB,{it}" for it in range(16, count + 1, 16)]


def tapes():
    """The tape of the built-in setup holds 1,000: 62 batches of 16, then 7, then 1 of the last 3."""
    rest = ["F", *(f"Q,P,ABC,A,{price},100,," for price in (5000, 6000, 7000)), "F", "N,0,ABC", "F"]
    yield ["== script a full tape ends the taking and keeps what was taken", *quotes(999), *rest, "-- gives"]
    yield [*published(999), "PUB,999", "ERR,1066,F4", "BEST,0,ABC,999,ONESIDED,N,999.0000,100,999,,,,", "ERR,1068,F4"]
    yield ["1068 read, 2 refused, 1000 taken, 999 published"]
    yield ["== script an empty queue publishes a full tape", *quotes(1000), "F", "F", "Q,P,ABC,A,5000,100,,", "N,0,ABC", "-- gives"]
    yield [*published(1000), "PUB,1000", "PUB,1000", "BEST,0,ABC,1000,ONESIDED,N,1000.0000,100,1000,,,,"]
    yield ["1066 read, 0 refused, 1000 taken, 1000 published"]


def live(count):
    """A live run of a number of changes. The last record of each participant is the same."""
    half = count // 2
    yield ["live", "orders", "feed_a", "feed_b", "-- file feed_a", *(f"Q,N,ABC,A,,,{it},100" for it in range(1, half - 1))]
    yield ["Q,N,ABC,A,,,10.00,300", "Q,P,ABC,A,,,10.00,500", "-- file feed_b", *(f"Q,Y,ABC,A,,,{it},100" for it in range(1, count - half - 1))]
    yield ["Q,Y,ABC,A,,,10.01,200", "Q,Z,ABC,A,,,10.02,100", "-- file orders", "O,0,B,ABC,600,10.01", "-- gives"]


def runs():
    """Live runs under the built-in setup, whose tape holds 1,000."""
    yield ["== command a live run that fills the tape"]
    yield from live(1000)
    yield ["0", "TAPE,1000", "ANSWER,0,0", "PLAN,1000,B,ABC,600,10.0100,,600,6001.700000000", "LEG,N,10.0000,100", "LEG,P,10.0000,500"]
    yield ["CUT,10.0000,MARGINAL,10.003000000", "CUT,10.0100,TOOMUCH,", "END", "-- errors"]
    yield ["== command a live run beyond the tape"]
    yield from live(1001)
    yield ["7", "-- errors", "nms_tool: E7"]


def crowd(participants, symbols):
    """A setup of a number of participants, each with its place as its fee, and of symbols."""
    parts = {f"EX{place + 10}": ("A", place, 0) for place in range(participants)}
    return setup_of(parts, {f"{place}.ABC": 1 for place in range(symbols)}, 9, 9, 2).splitlines()


def widest(legs, cuts):
    """A plan of a number of legs and cuts, with every number as wide as it can be."""
    yield "PLAN,9,S,0.ABC,999999999,9999999.9999,M,999999999,-99999999999999999999.999999999"
    yield from (f"LEG,EX{it % 32 + 10},9999999.9999,999999999" for it in range(1, legs + 1))
    yield from ["CUT,9999999.9999,MARGINAL,-99999999999999999999.999999999"] * cuts
    yield "END"


def naming(places):
    """A plan that names the participants of a crowd at some places."""
    return [f"PLAN,1,B,0.ABC,1,1.0000,,0,0.000000000,{'+'.join(f'EX{it + 10}' for it in places)}", "END"]


def crowds():
    """The most participants and symbols, legs and cuts, and one more of each."""
    full, costs, no_plan = "C8", ["31 buy 1", "30 sell 1"], "L11"
    yield ["== settings the most participants and symbols", *crowd(32, 1000), "-- gives", "9 9 2 32 1000"]
    yield ["== settings one participant too many", *crowd(33, 1), "-- gives", full]
    yield ["== settings one symbol too many", *crowd(1, 1001), "-- gives", full]
    yield ["== settings one participant too many, and no symbol", *crowd(33, 0)[:-1], "-- gives", "C2"]
    yield ["== settings the last of the most participants has its own fee", *crowd(32, 1), "-- costs", *costs, "-- gives"]
    yield ["1.000000031", "-0.999999970"]
    yield ["== setup of the most participants", *crowd(32, 1)]
    yield ["== plan the widest", *widest(32, 32), "-- gives", *widest(32, 32)]
    yield ["== plan every participant is named", *naming(reversed(range(32))), "-- gives", *naming(range(32))]
    yield ["== plan one leg too many", *widest(33, 0), "-- gives", no_plan]
    yield ["== plan one cut too many", *widest(0, 33), "-- gives", no_plan]


def cases():
    """The text of all cases."""
    parts = [["== setup"], *tapes(), *runs(), *crowds()]
    return "".join(f"{line}\n" for part in parts for line in part)
