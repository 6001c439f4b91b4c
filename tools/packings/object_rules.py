"""Rules about which objects there are: classes of hosts, and names of hosts and machines."""
from draft import WIDE
from rules import keep, need_arrays, rule


def site_classes(draft, at_home, away):
    """Gives the sites a class each, and hosts of these classes."""
    draft.sites = [
        f"class Home {{ var hosts as {at_home}[$half];$more }}",
        f"class Away {{ var hosts as {away}[$half]; }}",
    ]
    draft.homes = ["var home as Home;", "var away as Away;"]


# Machines refer to any place, and have to be on a host.
keep(
    "objects-places",
    [("top", "abstract class Place { }", "class Nowhere extends Place { }"),
     ("top", "var nowhere as Nowhere;"), ("vm", "where host in Host;")],
    host_heads=["class Host extends Place"], host_shape="ref Place",
)
keep("objects-machines-first", machines_first=True)
# One host more, which has no machine.
keep(
    "objects-spare-host",
    [("hosts", "class Spare extends Host { where forall v in Vm { v.host != this; }; }"),
     ("behind", "var spare as Spare;")],
)


@rule("objects-two-host-classes")
def two_host_classes(draft):
    """Two classes of hosts, each of which has its own room and rows."""
    draft.add("top", "abstract class Host { }")
    draft.host_heads = ["class Big extends Host", "class Little extends Host"]
    site_classes(draft, "Big", "Little")


@rule("objects-host-subclasses")
def host_subclasses(draft):
    """Two classes of hosts that have their rooms and rows of the one that they extend."""
    draft.host_heads = ["abstract class Host"]
    draft.add("hosts", "class Big extends Host { }", "class Little extends Host { }")
    site_classes(draft, "Big", "Little")


@rule("objects-places-with-rows")
def places_with_rows(draft):
    """Machines refer to any place, of which each has a row, and have to be on a host."""
    draft.host_heads, draft.host_shape = ["abstract class Place"], "ref Place"
    draft.room_shape = f"0..{WIDE}"
    cpu, mem = draft.packing.room
    draft.add("hosts", "class Nowhere extends Place { where { cpu = 0; mem = 0; } }")
    draft.add("hosts", "var nowhere as Nowhere;")
    draft.add("hosts", f"class Host extends Place {{ where {{ cpu = {cpu}; mem = {mem}; }} }}")
    draft.add("vm", "where host in Host;")


@rule("objects-referred-hosts")
def referred_hosts(draft):
    """The sites have their hosts as reference sets."""
    draft.sites = ["class Site { var hosts as ref Host[$half];$more }"]
    for k in range(draft.packing.hosts):
        draft.homes.append(f"var h{k + 1} as Host;")
    for k in range(draft.packing.hosts):
        site = "home" if k < draft.half else "away"
        draft.add("behind", f"where h{k + 1} in {site}.hosts;")


@rule("objects-named-machines")
def named_machines(draft):
    """Each machine has a variable of its own, of the class of its size."""
    need_arrays(draft)
    draft.named = True
