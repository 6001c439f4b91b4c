"""Families of placements by seed and size, in three languages, and programs that answer them."""
from . import choices, copies, groups, loads

# What draws each family, and whether its placements are repaired.
FAMILIES = {
    "01-balance": (loads.draw_balance, False),
    "02-host-cost": (loads.draw_host_cost, False),
    "03-use-cost": (loads.draw_use_cost, False),
    "04-zones": (copies.draw_zones, False),
    "05-sets": (copies.draw_sets, False),
    "06-wishes": (groups.draw_wishes, False),
    "07-ports": (choices.draw_ports, False),
    "08-flavours": (choices.draw_flavours, False),
    "09-home": (groups.draw_home, False),
    "10-versions": (choices.draw_versions, False),
    "11-licences": (groups.draw_licences, False),
    "12-network": (groups.draw_network, False),
    "13-spare": (copies.draw_spare, False),
    "14-mirrors": (copies.draw_mirrors, False),
    "15-jobs": (choices.draw_jobs, False),
    "16-repair-balance": (loads.draw_balance, True),
    "16-repair-use-cost": (loads.draw_use_cost, True),
    "16-repair-zones": (copies.draw_zones, True),
    "16-repair-home": (groups.draw_home, True),
}
