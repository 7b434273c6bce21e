"""What is measured of a design: the lengths and boxes of nets, and the areas in the cells of the grid."""
from second.geometry import Rectangle, area_within
from second.nets import nets_of


def total_length(design):
    return sum(it.length for it in nets_of(design).values())


def box_of(net):
    """Returns the least rectangle round the shapes of a net, or None where it has none."""
    rectangles = [it.rectangle for it in net.shapes()]
    if not rectangles:
        return None
    return Rectangle(
        min(it.left for it in rectangles),
        min(it.bottom for it in rectangles),
        max(it.right for it in rectangles),
        max(it.top for it in rectangles),
    )


def cell(design, column, row):
    """Returns a cell of the grid, between two of its lines in a row each way, or None where there is none."""
    if not (0 <= column < len(design.columns) - 1 and 0 <= row < len(design.lines) - 1):
        return None
    return Rectangle(design.columns[column], design.lines[row], design.columns[column + 1], design.lines[row + 1])


def area_of_shapes(design, within, layer):
    """Returns the area that the shapes of all nets on a layer have in a cell, each counted for itself."""
    shapes = [it for net in nets_of(design).values() for it in net.shapes()]
    return sum(area_within(it.rectangle, within) for it in shapes if it.layer == layer)


def area_of_components(design, within):
    """Returns the area that the components that take part have in a cell, each counted for itself."""
    taking = [it for it in design.components() if design.takes_part(it)]
    return sum(area_within(design.placed_boundary(it), within) for it in taking)
