"""The register map, the registers of the window and the refusal numbers, as the definitions have them.

Made by tools/registers from crates/map/specs/Registers.antt, crates/map/specs/Map.antt,
crates/rules/specs/Window.antt and crates/answer/specs/Refusals.antt. Do not edit.
"""

# name, at, bytes, default, parts: the class of the bits under a mask; every other bit is read-only
ROWS = (
    ("VID2", 0x00, 2, 0x8086, ()),
    ("DID2", 0x02, 2, 0x0152, (("host", 0xFFFF),)),
    ("PCICMD2", 0x04, 2, 0x0000, (("guestF", 0x0407),)),
    ("PCISTS2", 0x06, 2, 0x0090, (("host", 0x0008),)),
    ("RID2", 0x08, 1, 0x00, (("host", 0xFF),)),
    ("CC", 0x09, 3, 0x030000, (("host", 0xFFFF00),)),
    ("GTTMMADR", 0x10, 8, 0x0000000000000004, (("guestF", 0xFFFFFFFFFFC00000),)),
    ("GMADR", 0x18, 8, 0x000000000000000C, (("guestF", 0xFFFFFFFFE0000000), ("aperture", 0x0000000018000000))),
    ("IOBAR", 0x20, 4, 0x00000001, (("guestF", 0x0000FFC0),)),
    ("SVID2", 0x2C, 2, 0x0000, (("once", 0xFFFF),)),
    ("SID2", 0x2E, 2, 0x0000, (("once", 0xFFFF),)),
    ("CAPPOINT", 0x34, 1, 0x90, (("computed", 0xFF),)),
    ("INTRLINE", 0x3C, 1, 0x00, (("guest", 0xFF),)),
    ("INTRPIN", 0x3D, 1, 0x01, ()),
    ("CAPID0", 0x40, 2, 0x0009, ()),
    ("CAPCTRL0", 0x42, 2, 0x010C, ()),
    ("CAPID0_A", 0x44, 4, 0x00000000, (("host", 0xFFFFFFFF),)),
    ("CAPID0_B", 0x48, 4, 0x00000000, (("host", 0xFFFFFFFF),)),
    ("MGGC0", 0x50, 2, 0x0028, (("host", 0xFFFF),)),
    ("DEVEN0", 0x54, 4, 0x0000209F, (("host", 0xFFFFFFFF),)),
    ("BDSM", 0x5C, 4, 0x00000000, (("host", 0xFFFFFFFF),)),
    ("HSRW", 0x60, 2, 0x0000, (("guestF", 0xFFFF),)),
    ("MSAC", 0x62, 1, 0x02, (("guest", 0xF0), ("size_code", 0x06))),
    ("VTD_STATUS", 0x63, 1, 0x00, (("host", 0x01),)),
    ("CAPL", 0x7F, 1, 0x00, (("guest", 0x01),)),
    ("MSI_CAPID", 0x90, 2, 0xD005, ()),
    ("MC", 0x92, 2, 0x0000, (("guestF", 0x0071),)),
    ("MA", 0x94, 4, 0x00000000, (("guestF", 0xFFFFFFFC),)),
    ("MD", 0x98, 2, 0x0000, (("guestF", 0xFFFF),)),
    ("AFCIDNP", 0xA4, 2, 0x0013, ()),
    ("AFLC", 0xA6, 2, 0x0306, ()),
    ("AFCTL", 0xA8, 1, 0x00, (("reset_start", 0x01),)),
    ("PMCAPID", 0xD0, 2, 0xA401, ()),
    ("PMCAP", 0xD2, 2, 0x0022, ()),
    ("PMCS", 0xD4, 2, 0x0000, (("power", 0x0003),)),
    ("SWSMI", 0xE0, 2, 0x0000, (("guest", 0xFFFF),)),
    ("GSE", 0xE4, 4, 0x00000000, (("guest", 0xFFFFFFFF),)),
    ("SWSCI", 0xE8, 2, 0x0000, (("guest", 0x7FFF), ("once", 0x8000))),
    ("ASLS", 0xFC, 4, 0x00000000, (("guest", 0xFFFFFFFF),)),
)

# name, offset inside GTTMMADR
WINDOW = (
    ("FAULT_REG", 0x004094),
    ("ASSRREQ", 0x00810C),
    ("MTOUUD", 0x108080),
    ("MTOUUD_HIGH", 0x108084),
    ("MBDSM", 0x1080C0),
    ("DRAM_CYCLES", 0x138078),
)

REFUSALS = {
    1: "LENGTH",
    2: "WIDTH",
    3: "NOT OURS",
    4: "OTHER FUNCTION",
    5: "OFFSET",
    6: "LANES",
    7: "NOT HOST",
    8: "NO RANGE",
    9: "LINE",
    10: "POINTER",
    11: "ENDLESS",
    12: "SHEET LENGTH",
    13: "SHEET CONTENTS",
    14: "SHEET BODY",
    16: "WINDOW OFFSET",
}
