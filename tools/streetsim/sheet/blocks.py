"""Parts a sheet into its blocks: a row with the block's name alone, a row of columns, and rows of values."""
from collections.abc import Iterator, Mapping, Sequence
from dataclasses import dataclass, field

from streetsim.base.helping import nearest
from streetsim.demand.grids import GridCell, GridRow, place_of
from streetsim.sheet.slips import Slips

COUNTS = "COUNTS"
# (columns that a block must have, those that it may have); a column `junction` may stand in each.
BLOCKS: dict[str, tuple[str, str]] = {
    "JUNCTIONS": ("junction,control", "radius,ring lanes,drive"),
    "ARMS": ("arm,bearing,length", "street,speed,out,rank,leads to"),
    "LANES": ("arm,lane,turns", "pocket"),
    "PLANS": ("plan,cycle", "offset"),
    "PHASES": ("plan,green,seconds", "phase,permissive,yellow,all red,minimum,walk,walk seconds"),
    "PROFILE": ("begin,share", ""),
}
JUNCTION = "junction"


@dataclass(frozen=True, slots=True)
class SheetRow:
    """A row of a block: cells by column, in small letters; place: of its first cell."""

    cells: Mapping[str, GridCell]
    place: str

    def get(self, column: str) -> GridCell:
        """The cell of a column; a blank one at the row's begin where the block does not have the column."""
        return self.cells.get(column) or GridCell("", self.place)


@dataclass(slots=True)
class SheetBlock:
    """A block: its title's cell, the cells of its columns, and its rows; grid: the row of columns and the rows as they
    stand in the sheet."""

    cell: GridCell
    head: tuple[GridCell, ...] = ()
    grid: list[GridRow] = field(default_factory=list)
    rows: list[SheetRow] = field(default_factory=list)


def blocks_of(rows: Sequence[GridRow], slips: Slips) -> dict[str, SheetBlock]:
    """{name: block} of a sheet, where slips are told of what is in none, of names twice, and of columns. A worksheet
    that is called as a block begins it."""
    blocks: dict[str, SheetBlock] = {}
    current: SheetBlock | None = None
    sheet = ""
    for row in rows:
        title = title_of(row)
        if title is None and row.sheet != sheet and row.sheet.upper() in (*BLOCKS, COUNTS):
            title = GridCell(row.sheet, place_of(row.sheet, 1, 0))
            current = added(blocks, title, slips)
        elif title is not None:
            current = added(blocks, title, slips)
            sheet = row.sheet
            continue
        sheet = row.sheet
        if current is None:
            block_names = ", ".join((*BLOCKS, COUNTS))
            first = row.cells[0]
            slips.add(first, f"{first.text!r} is in no block", f"write the block's name above: {block_names}")
            break
        if not current.head:
            current.head = row.cells
        current.grid.append(row)
    for name, block in blocks.items():
        if name != COUNTS:
            block.rows = list(named_rows(name, block, slips))
    return blocks


def title_of(row: GridRow) -> GridCell | None:
    """The cell of a block's name, which stands alone in its row, or of what looks like one; None for other rows."""
    filled = [cell for cell in row.cells if cell.text]
    name = filled[0].text.rstrip(":")
    is_known, is_like = name.upper() in (*BLOCKS, COUNTS), name.isalpha() and name.isupper() and len(name) > 2
    return filled[0] if len(filled) == 1 and (is_known or is_like) else None


def added(blocks: dict[str, SheetBlock], title: GridCell, slips: Slips) -> SheetBlock:
    """The new block of a title; a slip where no block is called so, or it is there."""
    name, block = title.text.upper().rstrip(":"), SheetBlock(title)
    if name not in (*BLOCKS, COUNTS):
        near = nearest(name, (*BLOCKS, COUNTS))
        slips.add(title, f"there is no block {title.text!r}{near}", f"write {', '.join((*BLOCKS, COUNTS))}")
    elif name in blocks:
        slips.add(title, f"the block {name} stands twice", f"put its rows below {blocks[name].cell.place}")
    else:
        blocks[name] = block
    return block


def named_rows(name: str, block: SheetBlock, slips: Slips) -> Iterator[SheetRow]:
    """The rows of a block by its columns; slips for columns that are missing, twice, or none of its."""
    required, optional = (tuple(filter(None, texts.split(","))) for texts in BLOCKS[name])
    known_columns = dict.fromkeys((JUNCTION, *required, *optional))
    columns = [cell.text.lower() for cell in block.head]
    for cell, column in zip(block.head, columns, strict=True):
        if column and column not in known_columns:
            near = nearest(column, known_columns)
            slips.add(cell, f"{name} has no column {cell.text!r}{near}", f"write {', '.join(known_columns)}")
        elif column and columns.count(column) > 1:
            slips.add(cell, f"the column {column!r} stands twice", "leave one out")
    place = block.head[0].place if block.head else block.cell.place
    for column in required:
        if column not in columns:
            slips.add(place, f"{name} lacks the column {column!r}", f"write {', '.join(known_columns)}")
    for row in block.grid[1:]:
        for cell in row.cells[len(columns) :]:
            if cell.text:
                slips.add(cell, f"{cell.text!r} stands below no column", "leave it out, or give the column a name")
        missing = [GridCell("", place_of(row.sheet, row.line, at)) for at in range(len(row.cells), len(columns))]
        yield SheetRow(dict(zip(columns, [*row.cells, *missing])), row.cells[0].place)
