"""Texts and scripts that are small for what they may cost: each with the most that it is to take."""
from dataclasses import dataclass

UNITS = "UNITS DISTANCE MICRONS 1000 ;\n"
END = "END DESIGN\n"
# Two layers with a via, a site, and macros of 1 by 1 units and others.
LEF = """LAYER m1 TYPE ROUTING ; WIDTH 0.001 ; END m1
LAYER v1 TYPE CUT ; END v1
LAYER m2 TYPE ROUTING ; WIDTH 0.001 ; END m2
VIA M1M2 LAYER m1 ; RECT -0.001 -0.001 0.001 0.001 ; LAYER v1 ; RECT 0 0 0.001 0.001 ; LAYER m2 ; RECT -0.001 -0.001 0.001 0.001 ; END M1M2
SITE core SIZE 0.001 BY 0.001 ; END core
MACRO INV CLASS CORE ; SIZE 0.001 BY 0.001 ; SITE core ; PIN A PORT LAYER m1 ; RECT 0 0 0.001 0.001 ; END END A END INV
MACRO TALL CLASS BLOCK ; SIZE 0.001 BY 1000 ; END TALL
"""


@dataclass
class Crafted:
    """What a run is given. Where it has lines before, the run of these alone is taken off what it takes."""

    design: str
    script: str
    lef: str = LEF
    before: str = None


def section(name, entries):
    """Returns a section of these entries."""
    return "\n".join([f"{name} {len(entries)} ;", *entries, f"END {name}", ""])


def whole(*parts):
    return UNITS + "".join(parts) + END


def lines_of(lines):
    return "".join(f"{it}\n" for it in lines)


def macro(name, width, height, more=""):
    """Returns a macro of so many database units."""
    return f"MACRO {name} CLASS BLOCK ; SIZE {width / 1000:.3f} BY {height / 1000:.3f} ; {more} END {name}\n"


def placed(count, step=2, name="u"):
    """Returns components that stand apart in one line."""
    return [f"- {name}{i} INV + PLACED ( {step * i} 0 ) N ;" for i in range(count)]


# ---- Edits

NO_COMPONENTS = section("COMPONENTS", [])


def adds(count):
    return Crafted(whole(NO_COMPONENTS), lines_of(f"add f{i} INV" for i in range(count)))


def blocks(count):
    return Crafted(whole(section("BLOCKAGES", [])), lines_of(f"block {i} 0 {i + 1} 1" for i in range(count)))


def entries_by_text(count):
    design = whole(NO_COMPONENTS)
    at = design.index("END COMP")
    return Crafted(design, lines_of(f"text {at} {at} - f{i} INV ;\\n" for i in range(count)))


def adds_and_removes(count):
    return Crafted(whole(NO_COMPONENTS), lines_of(f"add f{i} INV\nremove f{i}" for i in range(count)))


def comments(count):
    return Crafted(whole(NO_COMPONENTS), "text 0 0 # a\\n\n" * count)


def connects_to_one_net(count):
    return Crafted(whole(section("COMPONENTS", placed(count)), section("NETS", ["- n ;"])), lines_of(f"connect n u{i} A" for i in range(count)))


def connects_of_one_component(count, before=None):
    pins = " ".join(f"PIN p{i} PORT LAYER m1 ; RECT 0 0 0.001 0.001 ; END END p{i}" for i in range(count))
    design = whole(section("COMPONENTS", ["- u WIDE ;"]), section("NETS", [f"- n{i} ;" for i in range(count)]))
    return Crafted(design, (before or "") + lines_of(f"connect n{i} u p{i}" for i in range(count)), LEF + macro("WIDE", 1, 1, pins), before)


def refused_texts(megabytes):
    entries = [f"- u{i} INV + PLACED ( {2 * i} 0 ) N + PROPERTY long \"{'x' * 800}\" ;" for i in range(int(megabytes * 1175))]
    design = whole(section("COMPONENTS", entries))
    return Crafted(design, f"text {len(design)} {len(design)} x\n" * 50, before="")


def long_entry(count):
    return Crafted(whole(section("COMPONENTS", ["- u INV" + " + PROPERTY p 1" * count + " ;"])), lines_of(f"place u {i} 0 N" for i in range(100)))


def connect_behind_a_check(count):
    pins = " ".join(f"( u{i} A )" for i in range(count))
    design = whole(section("COMPONENTS", [*placed(count), "- last INV + PLACED ( -9 0 ) N ;"]), section("NETS", [f"- n {pins} ;"]))
    return Crafted(design, "check\nconnect n last A\n", before="check\n")


# ---- Grids


def fine_grid(lines, script):
    grid = f"GCELLGRID X 0 DO {lines} STEP 1 ;\nGCELLGRID Y 0 DO {lines} STEP 1 ;\n"
    wire = f"- P + ROUTED m1 {lines} ( 0 {lines // 2} ) ( {lines} * ) ;"
    return Crafted(whole(grid, section("SPECIALNETS", [wire])), script)


def many_grids(count):
    grid = lines_of(f"GCELLGRID X {i} DO 100000 STEP {1000 + i} ;" for i in range(count))
    return Crafted(whole(grid, "GCELLGRID Y 0 DO 2 STEP 1 ;\n"), "pcell 0 0\n")


# ---- Places


def fence(points, width, height):
    """Returns a fence of these rectangles with one component of this size in it."""
    region = section("REGIONS", [f"- F {' '.join(points)} + TYPE FENCE ;"])
    return Crafted(whole(region, section("COMPONENTS", ["- u BIG + PLACED ( 0 0 ) N + REGION F ;"])), "check\n", LEF + macro("BIG", width, height))


def stairs(count):
    """A square that is cut by a stair: each column has a rectangle below a step, and one above it."""
    columns = count // 2
    below = [f"( {10 * i} 0 ) ( {10 * i + 10} {10 * i + 10} )" for i in range(columns)]
    above = [f"( {10 * i} {10 * i + 10} ) ( {10 * i + 10} {10 * columns + 10} )" for i in range(columns)]
    return fence([*below, *above], 10 * columns, 10 * columns)


def wide_rectangles(count):
    """Rectangles over one corner, each a step wider and higher than the one before."""
    return fence([f"( 0 0 ) ( {100000 + 10 * i} {10 * i + 10} )" for i in range(count)], 100000 + 10 * count - 10, 10 * count)


def tall_boxes(count):
    return Crafted(whole(section("COMPONENTS", [f"- u{i} TALL + PLACED ( {2 * i} {i} ) N ;" for i in range(count)])), "check\n")


def equal_rows(count):
    rows = lines_of(f"ROW r{i} core 0 0 N DO {2 * count} BY 1 STEP 1 0 ;" for i in range(count))
    return Crafted(whole(rows, section("COMPONENTS", placed(count))), "check\n")


def long_rows(count):
    rows = lines_of(f"ROW r{i} core 0 0 N DO 1 BY 1000000 STEP 0 1 ;" for i in range(count))
    return Crafted(whole(rows, section("COMPONENTS", [f"- u{i} INV + PLACED ( 0 {2 * i} ) N ;" for i in range(count)])), "check\n")


def far_fences(count):
    regions = [f"- F{i} ( {4 * i} 1000000 ) ( {4 * i + 2} 1000002 ) + TYPE FENCE ;" for i in range(count)]
    return Crafted(whole(section("REGIONS", regions), section("COMPONENTS", placed(count))), "check\n")


def far_blockages(count):
    entries = [f"- PLACEMENT RECT ( {4 * i} 1000000 ) ( {4 * i + 2} 1000002 ) ;" for i in range(count)]
    return Crafted(whole(section("BLOCKAGES", entries), section("COMPONENTS", placed(count))), "check\n")


def patterns(count):
    region = section("REGIONS", ["- F ( 0 0 ) ( 9 9 ) + TYPE FENCE ;"])
    groups = section("GROUPS", [f"- g {' '.join(['*x9'] * count)} + REGION F ;"])
    return Crafted(whole(region, groups, section("COMPONENTS", placed(count, name="xxxxxxxx"))), "check\n")


def sites_and_rows(count):
    sites = "".join(f"SITE s{i} SIZE 0.001 BY 0.001 ; END s{i}\n" for i in range(count))
    many = f"MACRO MANY CLASS CORE ; SIZE 0.001 BY 0.001 ; {' '.join(f'SITE s{i} ;' for i in range(count))} END MANY\n"
    rows = lines_of(f"ROW r{i} s{i} 0 0 N DO {count} BY 1 STEP 1 0 ;" for i in reversed(range(count)))
    entries = [f"- u{i} MANY + PLACED ( {2 * i} 0 ) N ;" for i in range(100)]
    return Crafted(whole(rows, section("COMPONENTS", entries)), "check\n", LEF + sites + many)


# ---- Nets and wires


def parallel_wires(count):
    return Crafted(whole(section("SPECIALNETS", [f"- n{i} + ROUTED m1 1 ( 0 {3 * i} ) ( 1000000 * ) ;" for i in range(count)])), "check\n")


def nested_wires(count):
    entries = [f"- n{i} + ROUTED m1 1 ( {10 * i} {3 * i} ) ( {1000000 - 10 * i} * ) ;" for i in range(count)]
    return Crafted(whole(section("SPECIALNETS", entries)), "check\n")


def stars(count):
    net = section("SPECIALNETS", ["- VDD" + " ( * A )" * (count // 20) + " ;"])
    return Crafted(whole(section("COMPONENTS", placed(count)), net), "check\n")


def array_of_wide_vias(count, script="check\n"):
    """An array of a via of 99 rectangles."""
    rectangles = " ".join(f"+ RECT {layer} ( {9 * i} 0 ) ( {9 * i + 5} 5 )" for layer in ("m1", "v1", "m2") for i in range(33))
    net = section("SPECIALNETS", [f"- P + ROUTED m1 0 ( 0 0 ) wide DO {count} BY {count} STEP 1000 1000 ;"])
    return Crafted(whole(section("VIAS", [f"- wide {rectangles} ;"]), net), script)


def array(columns, rows, step):
    return Crafted(whole(section("SPECIALNETS", [f"- P + ROUTED m1 0 ( 0 0 ) M1M2 DO {columns} BY {rows} STEP {step} ;"])), "check\n")


def vias_at_one_point(count):
    return Crafted(whole(section("SPECIALNETS", ["- P + ROUTED m1 0 ( 0 0 ) M1M2" + " NEW m1 0 ( 0 0 ) M1M2" * (count - 1) + " ;"])), "check\n")


def covers(count):
    entries = [f"- u{i} INV + COVER ( 0 0 ) N ;" for i in range(count)]
    return Crafted(whole(section("COMPONENTS", entries), section("NETS", ["- n ( * A ) ;"])), "check\n")


def rows():
    """Returns the rows by their names: what makes one of a size, that size, and the most that it is to take."""
    return {
        "adds": (adds, 80000, "1 s"),
        "adds_twice": (adds, 160000, "2 s"),
        "blocks": (blocks, 80000, "1 s"),
        "entries_by_text": (entries_by_text, 80000, "1 s"),
        "adds_and_removes": (adds_and_removes, 40000, "1 s"),
        "comments": (comments, 20000, "1 s"),
        "connects_to_one_net": (connects_to_one_net, 2000, "0.3 s"),
        "connects_of_one_component": (connects_of_one_component, 4000, "0.5 s"),
        "connects_of_one_component_behind_a_check": (lambda n: connects_of_one_component(n, "check\n"), 4000, "1 s beside the check"),
        "refused_texts": (refused_texts, 99, "0.5 s beside the opening"),
        "long_entry": (long_entry, 80000, "2 s"),
        "fine_grid_length": (lambda n: fine_grid(n, "length\n"), 100000, "0.1 s, 10 MB"),
        "fine_grid_check": (lambda n: fine_grid(n, "check\n"), 100000, "0.1 s, 10 MB"),
        "many_grids": (many_grids, 1000, "1 s, 100 MB"),
        "stairs": (stairs, 3000, "1 s"),
        "stairs_twice": (stairs, 6000, "1 s"),
        "wide_rectangles": (wide_rectangles, 4000, "1 s"),
        "tall_boxes": (tall_boxes, 50000, "1 s"),
        "parallel_wires": (parallel_wires, 20000, "1 s"),
        "nested_wires": (nested_wires, 20000, "1 s"),
        "equal_rows": (equal_rows, 10000, "0.5 s"),
        "long_rows": (long_rows, 10000, "0.5 s"),
        "far_fences": (far_fences, 20000, "0.5 s"),
        "far_blockages": (far_blockages, 20000, "0.5 s"),
        "patterns": (patterns, 10000, "0.5 s"),
        "sites_and_rows": (sites_and_rows, 3000, "0.5 s"),
        "stars": (stars, 20000, "0.2 s"),
        "array_of_wide_vias": (array_of_wide_vias, 300, "1 s, 200 MB"),
        "array_of_a_million": (lambda n: array_of_wide_vias(n, "length\n"), 1000, "0.1 s"),
        "array_on_one_place": (lambda n: array(n, 1, "0 0"), 10000, "3 s"),
        "array_on_itself": (lambda n: array(n, n, "-1 0"), 1000, "3 s"),
        "vias_at_one_point": (vias_at_one_point, 20000, "3 s"),
        "covers": (covers, 20000, "3 s"),
        "connect_behind_a_check": (connect_behind_a_check, 16000, "what reading its statements costs, beside the check"),
    }
