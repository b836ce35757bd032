"""streetsim-export: edges and junctions with what is known of them, for geographic information systems, or a run as a
workbook."""
import os

from streetsim.base.files import Fault, checked_output_path
from streetsim.base.words import Parser, add_names
from streetsim.model.names import read_own
from streetsim.report.gis_export import export_told, features, find_ogr2ogr, told_of_runs, write_geojson, write_package
from streetsim.report.gis_projection import converter_of
from streetsim.report.run_tables import read_with_any_tables
from streetsim.report.workbook import write_workbook

WORKBOOK = ".xlsx"


def parser() -> Parser:
    """The parser of the words that streetsim-export takes."""
    tool_parser = Parser(
        prog="streetsim-export",
        examples=(
            "streetsim-export zero -o zero.geojson",
            "streetsim-export zero-seeds -o zero.gpkg --names names.csv",
            "streetsim-export zero -o zero.xlsx",
        ),
        description="Writes the edges and junctions of a run with flow, speed, control delay, level of service, "
        "v/c and queues by interval, in WGS84: GeoJSON, or a GeoPackage by GDAL's ogr2ogr. "
        "With --seeds means over the seeds. Or one workbook of all tables, doubts and timing sheets (.xlsx).",
    )
    tool_parser.add_argument("run", metavar="FOLDER", help="folder that streetsim-run wrote, or one with seeds")
    tool_parser.add_argument("-o", "--output", required=True, help="output file (.geojson, .gpkg, .xlsx)")
    projection = "projection of a network that names none: EPSG:25832, '+proj=utm +zone=32', .."
    tool_parser.add_argument("--projection", help=projection)
    add_names(tool_parser)
    return tool_parser


def main(arguments: list[str]) -> int:
    """Runs streetsim-export: writes the file, and prints what is in it; gives status 0."""
    args = parser().parse_args(arguments)
    ending = os.path.splitext(args.output)[1].lower()
    if ending not in (".geojson", ".gpkg", WORKBOOK):
        raise Fault(f"{args.output}: an export's name ends with .geojson, .gpkg or .xlsx")
    if ending == WORKBOOK and args.projection:
        raise Fault("--projection is of maps: a workbook has none")
    if ending == ".gpkg":
        find_ogr2ogr()
    checked_output_path(args.output)
    runs = read_with_any_tables(args.run)
    mapping = runs.first_folder.mapping
    if args.names:
        read_own(args.names, mapping)
    if ending == WORKBOOK:
        sheets = write_workbook(args.output, runs)
        print(told_of_runs(f"{args.output}: {len(sheets)} worksheets: {', '.join(sheets)}", runs))
        return 0
    map_features = list(features(runs, converter_of(mapping.location, args.projection, runs.first_folder.path)))
    (write_package if ending == ".gpkg" else write_geojson)(args.output, map_features)
    print(export_told(args.output, runs, map_features))
    return 0
